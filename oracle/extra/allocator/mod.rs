// Added by the oracle: the one door through which the harness reaches the private modules.
// Spans are named here by the address of their data, heaps by a handle.
pub(crate) mod door {
    use std::ptr::NonNull;

    use super::{
        heap::{self, Heap},
        primary, size_classes,
        size_classes::SizeClass,
        span, PrimaryAllocator, PRIMARY,
    };
    use crate::utils::linked_list::LinkedListNode;

    pub use super::non_crypto_rng::{
        script_from_seed, script_from_words, words_used, STEP, WORDS_LENT,
    };
    pub use size_classes::SIZE_CLASS_COUNT;
    pub use span::Bare;

    type Node = NonNull<LinkedListNode<span::Span>>;

    pub struct HeapHandle(NonNull<Heap>);

    impl Drop for HeapHandle {
        fn drop(&mut self) {
            drop(unsafe { Box::from_raw(self.0.as_ptr()) });
        }
    }

    /// One span's record; links are addresses.
    pub struct SpanRecord {
        pub class: usize,
        pub owner: u64,
        pub occupied: u64,
        pub previous: Option<usize>,
        pub next: Option<usize>,
    }

    /// Replaces the allocator by a new one. The old one is left behind, not dropped.
    pub fn restart() {
        unsafe {
            #[allow(static_mut_refs)]
            PRIMARY.write(PrimaryAllocator::new([1; 16]));
        }
    }

    pub fn new_heap() -> HeapHandle {
        HeapHandle(NonNull::from(Box::leak(Box::new(Heap::new(1)))))
    }

    pub fn exhaust_windows() {
        unsafe { primary() }.exhaust_windows();
    }

    pub fn choose_class(size: usize, align: usize) -> Option<usize> {
        SizeClass::from_layout(size, align).map(|class| class.index())
    }

    fn class(index: usize) -> SizeClass {
        SizeClass::from_raw(index as u8)
    }

    pub fn slot_size(index: usize) -> usize {
        class(index).slot_size_in_bytes()
    }

    pub fn slots_per_span(index: usize) -> usize {
        class(index).slots_per_span() as usize
    }

    pub fn slot_index(index: usize, offset: usize) -> usize {
        class(index).slot_index(offset) as usize
    }

    pub fn bare_occupancy(index: usize) -> span::Bare {
        span::Bare::new(class(index))
    }

    pub fn magazine_layout(index: usize) -> (usize, usize, usize) {
        heap::magazine_layout(index)
    }

    impl HeapHandle {
        fn heap(&self) -> &Heap {
            unsafe { self.0.as_ref() }
        }

        pub fn id(&self) -> u64 {
            self.heap().id().raw()
        }

        pub fn allocate(&self, index: usize) -> Option<usize> {
            unsafe {
                heap::point_at(self.0);
                let block = primary().allocate_class(class(index))?;
                Some(block.addr().get())
            }
        }

        pub fn free(&self, block: usize) {
            unsafe {
                heap::point_at(self.0);
                primary().free(block as *mut u8);
            }
        }

        pub fn exit(&mut self) {
            unsafe {
                heap::point_at(self.0);
                self.0.as_mut().abandon_all(primary());
            }
        }

        /// Addresses of the partial, full and empty fronts and of the reserve.
        pub fn fronts(&self, index: usize) -> [Option<usize>; 4] {
            self.heap().fronts(index).map(address_of)
        }

        pub fn entries(&self) -> impl Iterator<Item = usize> + '_ {
            let (entries, _) = self.heap().magazine_cells();
            entries.iter().map(|entry| entry.addr())
        }

        pub fn count(&self, index: usize) -> usize {
            self.heap().magazine_cells().1[index] as usize
        }

        /// Whether every span that a reactivation could take is as `reinitialize` would make it.
        pub fn idle_spans_are_fresh(&self, index: usize) -> bool {
            let [_, _, empty, reserve] = self.heap().fronts(index);
            let fresh = |node: Node| unsafe { node.as_ref() }.value.is_as_reinitialized();
            let mut node = empty;
            while let Some(current) = node {
                if !fresh(current) {
                    return false;
                }
                node = unsafe { current.as_ref() }.next();
            }
            reserve.is_none_or(fresh)
        }
    }

    pub fn pool_front(index: usize) -> Option<usize> {
        address_of(unsafe { primary() }.abandoned_front(index))
    }

    /// The address of the span that holds `block`, found by the original's own lookup.
    pub fn span_of(block: usize) -> usize {
        unsafe { node_of(block).as_ref() }.value.address()
    }

    pub fn span_record(span: usize) -> SpanRecord {
        let node = unsafe { node_of(span).as_ref() };
        SpanRecord {
            class: node.value.class_index(),
            owner: node.value.owner().raw(),
            occupied: node.value.occupied() as u64,
            previous: address_of(node.previous()),
            next: address_of(node.next()),
        }
    }

    pub fn put_bits(span: usize, cells: &mut [u64]) {
        unsafe { node_of(span).as_ref() }.value.put_bits(cells);
    }

    fn address_of(node: Option<Node>) -> Option<usize> {
        node.map(|node| unsafe { node.as_ref() }.value.address())
    }

    fn node_of(block: usize) -> Node {
        let pointer = block as *mut u8;
        unsafe {
            let window = primary().window_for_pointer(pointer);
            window.expect("no window").span_for_pointer(pointer)
        }
    }
}
