// Added by the oracle: which heap the next call runs on, and a view of the private cells.
use super::span::Span;
use crate::utils::linked_list::LinkedListNode;
use magazine::MagazineLayout;

pub(super) unsafe fn point_at(heap: NonNull<Heap>) {
    HEAP_POINTER = Some(heap);
}

/// Offset, capacity and low water of a class's magazine.
pub(super) fn magazine_layout(class: usize) -> (usize, usize, usize) {
    let layout = MagazineLayout::MAGAZINE_LAYOUT[class];
    (
        layout.offset as usize,
        layout.capacity as usize,
        layout.low_water as usize,
    )
}

impl HeapId {
    pub(super) fn raw(self) -> u64 {
        self.0
    }
}

impl Heap {
    pub(super) fn fronts(&self, class: usize) -> [Option<NonNull<LinkedListNode<Span>>>; 4] {
        self.classes[class].fronts()
    }

    pub(super) fn magazine_cells(&self) -> (&[*mut u8], &[u16]) {
        self.magazines.cells()
    }
}
