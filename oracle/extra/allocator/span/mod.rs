// Added by the oracle: a view of the private cells.
impl Span {
    pub fn address(&self) -> usize {
        self.data_pointer.addr().get()
    }

    pub fn class_index(&self) -> usize {
        self.size_class.index()
    }

    pub fn occupied(&self) -> u16 {
        unsafe { (*self.local.get()).slots_occupied }
    }

    /// Local summary, local words, remote summary, remote words.
    pub fn put_bits(&self, cells: &mut [u64]) {
        let (summary, words) = unsafe { (*self.local.get()).occupancy.cells() };
        cells[0] = *summary;
        cells[1..65].copy_from_slice(words);

        let (summary, words) = self.remote.occupancy.cells();
        cells[65] = summary.load(Ordering::Relaxed);
        for (cell, word) in cells[66..].iter_mut().zip(words) {
            *cell = word.load(Ordering::Relaxed);
        }
    }

    /// Whether `reinitialize`, called now, would leave every cell as it is.
    pub fn is_as_reinitialized(&self) -> bool {
        let fresh = LocalOccupancy::new(self.size_class);
        let local = unsafe { &*self.local.get() };
        local.slots_occupied == fresh.slots_occupied
            && local.occupancy.cells() == fresh.occupancy.cells()
    }
}

/// One span's local side alone, for the comparison of claims and releases.
pub struct Bare(LocalOccupancy);

impl Bare {
    pub fn new(size_class: SizeClass) -> Self {
        Self(LocalOccupancy::new(size_class))
    }

    pub fn claim(&mut self, max: u32, random: u64) -> Option<(usize, u64)> {
        self.0.claim_up_to(max, random)
    }

    pub fn release(&mut self, slot: u16) {
        self.0.release_slot(slot);
    }

    pub fn release_word(&mut self, word: usize, freed: u64) {
        self.0.release_slots_by_word(word, freed);
    }

    /// Summary, words and count.
    pub fn cells(&self) -> (u64, [u64; 64], u64) {
        let (summary, words) = self.0.occupancy.cells();
        (*summary, *words, self.0.slots_occupied as u64)
    }
}
