// Added by the oracle: the original has `next` but no way to read `prev`.
impl<T> LinkedListNode<T> {
    pub fn previous(&self) -> Option<NonNull<LinkedListNode<T>>> {
        self.prev
    }
}
