//! The kernel as the allocator sees it. Data pages are never touched by the allocator, so a
//! reservation is only a range of numbers; metadata is real memory. `mprotect` is called exactly
//! once for each span made, which makes it the place to count spans and keep their order.

use std::{ffi::c_void, ptr::null_mut, sync::Mutex};

#[derive(Clone, Copy, PartialEq, Eq)]
pub struct ProtectionFlags(u32);

impl ProtectionFlags {
    pub const ZERO: Self = Self(0);

    pub const fn with_readable(self, on: bool) -> Self {
        Self(self.0 & !1 | on as u32)
    }

    pub const fn with_writable(self, on: bool) -> Self {
        Self(self.0 & !2 | (on as u32) << 1)
    }
}

/// All real mappings here are private, anonymous and without reserve, so the flags are not kept.
#[derive(Clone, Copy)]
pub struct MapFlags;

impl MapFlags {
    pub const ZERO: Self = Self;

    pub const fn with_private(self, _on: bool) -> Self {
        self
    }

    pub const fn with_anonymous(self, _on: bool) -> Self {
        self
    }

    pub const fn with_noreserve(self, _on: bool) -> Self {
        self
    }
}

extern "C" {
    #[link_name = "mmap"]
    fn real_mmap(
        at: *mut c_void,
        length: usize,
        protection: i32,
        flags: i32,
        file: i32,
        offset: i64,
    ) -> *mut c_void;
    #[link_name = "munmap"]
    fn real_munmap(at: *mut c_void, length: usize) -> i32;
    #[link_name = "madvise"]
    fn real_madvise(at: *mut c_void, length: usize, advice: i32) -> i32;
}

const READ_WRITE: i32 = 3;
const PRIVATE_ANONYMOUS_NORESERVE: i32 = 0x2 | 0x20 | 0x4000;
const NO_HUGE_PAGES: i32 = 15;
const FAILED: *mut u8 = usize::MAX as *mut u8;

/// Reservations start here: low enough for the window directory's 47 bits, and never 0.
const FIRST_RESERVATION: usize = 1 << 40;

struct Kernel {
    limit: usize,
    created: Vec<usize>,
    next_reservation: usize,
    mappings: Vec<(usize, usize)>,
    discards: u64,
}

static KERNEL: Mutex<Kernel> = Mutex::new(Kernel {
    limit: usize::MAX,
    created: Vec::new(),
    next_reservation: FIRST_RESERVATION,
    mappings: Vec::new(),
    discards: 0,
});

fn kernel() -> std::sync::MutexGuard<'static, Kernel> {
    KERNEL
        .lock()
        .unwrap_or_else(|poisoned| poisoned.into_inner())
}

/// Forget every mapping and start counting spans anew, up to `limit`.
/// The caller promises that nothing made before is used again.
pub unsafe fn restart(limit: usize) {
    let mut kernel = kernel();
    for (at, length) in std::mem::take(&mut kernel.mappings) {
        real_munmap(at as *mut c_void, length);
    }
    kernel.limit = limit;
    kernel.created.clear();
    kernel.next_reservation = FIRST_RESERVATION;
    kernel.discards = 0;
}

/// The number of spans made since the last restart.
pub fn spans_created() -> usize {
    kernel().created.len()
}

/// The address of span `number`, counted in order of creation over all classes.
pub fn span_address(number: usize) -> usize {
    kernel().created[number]
}

/// How often pages were discarded, which the original does exactly when it demotes a reserve.
pub fn discards() -> u64 {
    kernel().discards
}

pub unsafe fn mmap(
    _at: *mut u8,
    length: usize,
    protection: ProtectionFlags,
    _flags: MapFlags,
    _file: isize,
    _offset: usize,
) -> *mut u8 {
    let mut kernel = kernel();
    if kernel.created.len() >= kernel.limit {
        return FAILED;
    }
    if protection == ProtectionFlags::ZERO {
        let at = kernel.next_reservation;
        kernel.next_reservation += length;
        return at as *mut u8;
    }
    let at = real_mmap(
        null_mut(),
        length,
        READ_WRITE,
        PRIVATE_ANONYMOUS_NORESERVE,
        -1,
        0,
    );
    assert!(at as isize > 0, "no memory for metadata");
    // A span touches one small node; a huge page for each class would cost far more than it saves.
    real_madvise(at, length, NO_HUGE_PAGES);
    kernel.mappings.push((at as usize, length));
    at as *mut u8
}

/// Only the slack of a reservation is ever unmapped, and that has no memory behind it.
pub unsafe fn munmap(_at: *mut u8, _length: usize) -> i32 {
    0
}

/// A span is being made. With the last one allowed every window is marked exhausted, so that the
/// next request for a span goes to `mmap`, which then refuses.
pub unsafe fn mprotect(at: *mut u8, _length: usize, _protection: ProtectionFlags) -> i32 {
    let mut kernel = kernel();
    assert!(kernel.created.len() < kernel.limit, "span past the limit");
    kernel.created.push(at as usize);
    if kernel.created.len() == kernel.limit {
        crate::allocator::door::exhaust_windows();
    }
    0
}

pub unsafe fn madvise(_at: *mut u8, _length: usize, _advice: i32) -> i32 {
    kernel().discards += 1;
    0
}
