// Added by the oracle: the window has no room for another span.
impl ClassWindow {
    pub(super) fn exhaust(&self) {
        self.span_cursor.store(Self::SIZE, Ordering::Relaxed);
    }
}
