// Added by the oracle: the bound on spans, the small path alone, and the pool of orphans.
impl PrimaryAllocator {
    pub(super) fn exhaust_windows(&self) {
        for class in 0..SIZE_CLASS_COUNT {
            self.current_window(SizeClass::from_raw(class as u8))
                .exhaust();
        }
    }

    /// `alloc` without a `Layout`, which cannot carry alignment 0.
    pub(super) unsafe fn allocate_class(&self, size_class: SizeClass) -> Option<NonNull<u8>> {
        self.alloc_small(size_class)
    }

    pub(super) fn abandoned_front(&self, class: usize) -> Option<NonNull<LinkedListNode<Span>>> {
        self.abandoned[class].lock().unwrap().front()
    }
}
