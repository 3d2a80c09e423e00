//! The proved library's side of the comparison: a table that it is lent, as C lends it. Built by
//! `oracle/calls` alone, which links the static library of the crate `call_leaves`.

use crate::{
    allocator::door,
    call::{Answer, Call, Words},
    random::Random,
    table::Table,
};

// A slice is passed as its start and its length.
extern "C" {
    fn laggersten_leaf_new(
        heaps: u64,
        spans: u64,
        bits: *mut u64,
        bits_length: usize,
        records: *mut u64,
        records_length: usize,
        entries: *mut u64,
        entries_length: usize,
        heads: *mut u64,
        heads_length: usize,
        used: *mut u64,
    ) -> u64;
    fn laggersten_leaf_allocate(
        heaps: u64,
        spans: u64,
        bits: *mut u64,
        bits_length: usize,
        records: *mut u64,
        records_length: usize,
        entries: *mut u64,
        entries_length: usize,
        heads: *mut u64,
        heads_length: usize,
        used: *mut u64,
        heap: u64,
        size: u64,
        alignment: u64,
        words: *const u64,
        words_length: usize,
    ) -> Answer;
    fn laggersten_leaf_free(
        heaps: u64,
        spans: u64,
        bits: *mut u64,
        bits_length: usize,
        records: *mut u64,
        records_length: usize,
        entries: *mut u64,
        entries_length: usize,
        heads: *mut u64,
        heads_length: usize,
        used: *mut u64,
        heap: u64,
        span: u64,
        offset: u64,
    ) -> Answer;
}

/// How much of the table a call is told of: heaps, spans, and the lengths of the four slices.
#[derive(Clone, Copy, Debug)]
pub struct Told {
    pub heaps: u64,
    pub spans: u64,
    pub lengths: [usize; 4],
}

pub struct Lent {
    pub told: Told,
    pub table: Table,
}

impl Lent {
    /// Made fresh over cells that hold anything, so that a cell left unwritten shows.
    pub fn fresh(heaps: u64, spans: u64, random: &mut Random) -> Result<Self, String> {
        let mut table = Table::fresh(heaps as usize, spans as usize);
        for cells in [
            &mut table.bits,
            &mut table.spans,
            &mut table.entries,
            &mut table.heads,
        ] {
            cells.iter_mut().for_each(|cell| *cell = random.word());
        }
        table.used = random.word();
        let lengths = [
            table.bits.len(),
            table.spans.len(),
            table.entries.len(),
            table.heads.len(),
        ];
        let told = Told {
            heaps,
            spans,
            lengths,
        };
        let mut lent = Self { told, table };
        match lent.renew(told) {
            0 => Ok(lent),
            number => Err(format!("a fresh table is refused with {number}")),
        }
    }

    /// The slices as told must not be longer than they are.
    fn check(&self, told: Told) {
        let right = told.lengths.iter().zip(self.told.lengths);
        assert!(right.into_iter().all(|(told, right)| *told <= right));
    }

    pub fn renew(&mut self, told: Told) -> u64 {
        self.check(told);
        let [bits, records, entries, heads] = told.lengths;
        let table = &mut self.table;
        unsafe {
            laggersten_leaf_new(
                told.heaps,
                told.spans,
                table.bits.as_mut_ptr(),
                bits,
                table.spans.as_mut_ptr(),
                records,
                table.entries.as_mut_ptr(),
                entries,
                table.heads.as_mut_ptr(),
                heads,
                &mut table.used,
            )
        }
    }

    pub fn call(&mut self, call: &Call) -> Answer {
        self.call_told(self.told, call)
    }

    pub fn call_told(&mut self, told: Told, call: &Call) -> Answer {
        self.check(told);
        match call {
            Call::Allocate {
                heap,
                size,
                align,
                words: Words::Given(words),
            } => self.allocate(told, *heap, *size, *align, words),
            Call::Allocate {
                heap,
                size,
                align,
                words: Words::Seed(seed),
            } => {
                let mut word = *seed;
                let words = [(); door::WORDS_LENT].map(|_| {
                    let this = word;
                    word = word.wrapping_add(door::STEP);
                    this
                });
                self.allocate(told, *heap, *size, *align, &words)
            }
            Call::Free { heap, span, offset } => self.free(told, *heap, *span, *offset),
            Call::Exit { .. } => unreachable!("no heap exits here"),
        }
    }

    fn allocate(&mut self, told: Told, heap: u64, size: u64, align: u64, words: &[u64]) -> Answer {
        let [bits, records, entries, heads] = told.lengths;
        let table = &mut self.table;
        unsafe {
            laggersten_leaf_allocate(
                told.heaps,
                told.spans,
                table.bits.as_mut_ptr(),
                bits,
                table.spans.as_mut_ptr(),
                records,
                table.entries.as_mut_ptr(),
                entries,
                table.heads.as_mut_ptr(),
                heads,
                &mut table.used,
                heap,
                size,
                align,
                words.as_ptr(),
                words.len(),
            )
        }
    }

    fn free(&mut self, told: Told, heap: u64, span: u64, offset: u64) -> Answer {
        let [bits, records, entries, heads] = told.lengths;
        let table = &mut self.table;
        unsafe {
            laggersten_leaf_free(
                told.heaps,
                told.spans,
                table.bits.as_mut_ptr(),
                bits,
                table.spans.as_mut_ptr(),
                records,
                table.entries.as_mut_ptr(),
                entries,
                table.heads.as_mut_ptr(),
                heads,
                &mut table.used,
                heap,
                span,
                offset,
            )
        }
    }

    /// The first cell that is not as in `other`.
    pub fn same(&self, other: &Table) -> Result<(), String> {
        if self.table == *other {
            return Ok(());
        }
        for ((name, ours), (_, theirs)) in self.table.parts().into_iter().zip(other.parts()) {
            let differs = ours
                .iter()
                .zip(theirs)
                .position(|(our, their)| our != their);
            if let Some(place) = differs {
                let (our, their) = (ours[place], theirs[place]);
                return Err(format!("{name} cell {place}: {our} here, {their} there"));
            }
        }
        let (our, their) = (self.table.used, other.used);
        Err(format!("used: {our} here, {their} there"))
    }

    pub fn cells(&self) -> u64 {
        self.told.lengths.iter().sum::<usize>() as u64 + 1
    }
}
