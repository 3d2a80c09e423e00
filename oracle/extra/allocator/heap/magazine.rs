// Added by the oracle: a view of the private cells, stale ones included.
impl Magazines {
    pub(crate) fn cells(&self) -> (&[*mut u8], &[u16]) {
        (&self.entries, &self.entry_count)
    }
}
