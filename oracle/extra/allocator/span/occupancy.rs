// Added by the oracle: a view of the private cells.
impl<T> Occupancy<T> {
    pub fn cells(&self) -> (&T, &[T; BITMAP_WORD_COUNT]) {
        (&self.summary, &self.bitmap)
    }
}
