// Added by the oracle: partial, full and empty fronts, then the reserve.
impl ThreadClassHeap {
    pub(super) fn fronts(&self) -> [Option<NonNull<LinkedListNode<Span>>>; 4] {
        [
            self.partial_spans.front(),
            self.full_spans.front(),
            self.empty_spans.front(),
            self.hot_reserve,
        ]
    }
}
