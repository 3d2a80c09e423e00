//! Stands for the original's large allocator. Requests it would serve are answered 5 before it is
//! reached, so every call into it is a fault of the harness.

use std::{alloc::Layout, ptr::NonNull};

pub struct LargeAllocator;

impl LargeAllocator {
    pub const fn new() -> Self {
        Self
    }

    pub unsafe fn alloc_large(&mut self, _layout: Layout) -> Option<NonNull<u8>> {
        unreachable!("the large path is not run")
    }

    pub unsafe fn alloc_large_zeroed(&mut self, _layout: Layout) -> Option<NonNull<u8>> {
        unreachable!("the large path is not run")
    }

    pub unsafe fn dealloc_large(&mut self, _pointer: *mut u8) {
        unreachable!("the large path is not run")
    }

    pub unsafe fn allocation_size(&mut self, _pointer: *mut u8) -> usize {
        unreachable!("the large path is not run")
    }
}
