//! Drives the original: one table at a time, since its state is global.

use std::{
    collections::HashMap,
    hash::{BuildHasherDefault, Hasher},
};

use crate::{
    allocator::door::{self, HeapHandle},
    call::{Answer, Call, Words},
    libc::mem,
    table::{Table, BITS_A_SPAN, CLASSES, ENTRIES_A_HEAP, HEADS, RECORD, SLOTS},
};

pub const MAX_HEAPS: u64 = 16;
pub const MAX_SPANS: u64 = 1024;
const MAX_ALIGN: u64 = 1 << 63;

pub struct Driver {
    heaps: Vec<HeapHandle>,
    exited: Vec<bool>,
    limit: usize,
    numbers: HashMap<usize, usize, BuildHasherDefault<AddressHasher>>,
    spans: Vec<SpanSeen>,
    /// Tables before and after a call that may end in 6; kept, since making them costs more.
    scratch: [Table; 2],
}

/// A table has thousands of pointers to look up, and nobody attacks this map.
#[derive(Default)]
struct AddressHasher(u64);

impl Hasher for AddressHasher {
    fn finish(&self) -> u64 {
        self.0
    }

    fn write(&mut self, _bytes: &[u8]) {
        unreachable!("only addresses are hashed")
    }

    fn write_usize(&mut self, address: usize) {
        let mixed = (address as u64).wrapping_mul(0x9E37_79B9_7F4A_7C15);
        self.0 = mixed ^ (mixed >> 32);
    }
}

/// What the harness itself keeps of a span.
struct SpanSeen {
    address: usize,
    class: usize,
    out: [u64; 64],
}

impl Driver {
    pub fn fresh(heaps: u64, spans: u64) -> Result<Self, String> {
        if !(1..=MAX_HEAPS).contains(&heaps) || !(1..=MAX_SPANS).contains(&spans) {
            return Err(format!("no such table: {heaps} heaps, {spans} spans"));
        }
        assert_eq!(door::SIZE_CLASS_COUNT, CLASSES);
        unsafe { mem::restart(spans as usize) };
        door::restart();
        Ok(Self {
            heaps: (0..heaps).map(|_| door::new_heap()).collect(),
            exited: vec![false; heaps as usize],
            limit: spans as usize,
            numbers: HashMap::default(),
            spans: Vec::new(),
            scratch: [(); 2].map(|_| Table::fresh(heaps as usize, spans as usize)),
        })
    }

    /// The original's answer; `None` when the call is outside the domain and was not made.
    pub fn apply(&mut self, call: &Call) -> Option<Answer> {
        let heap = call.heap() as usize;
        if *self.exited.get(heap)? {
            return None;
        }
        match call {
            // The original's promotion to a power of two would panic.
            Call::Allocate { align, .. } if *align > MAX_ALIGN => None,
            Call::Allocate {
                size, align, words, ..
            } => Some(self.allocate(heap, *size, *align, words)),
            Call::Free { span, offset, .. } => self.free(heap, *span, *offset),
            Call::Exit { .. } => {
                self.heaps[heap].exit();
                self.exited[heap] = true;
                Some(Answer::default())
            }
        }
    }

    fn allocate(&mut self, heap: usize, size: u64, align: u64, words: &Words) -> Answer {
        let Some(class) = door::choose_class(size as usize, align as usize) else {
            return Answer::refusal(5);
        };
        match words {
            Words::Seed(seed) => door::script_from_seed(*seed),
            Words::Given(words) => door::script_from_words(words),
        }
        let handle = &self.heaps[heap];
        assert!(
            handle.idle_spans_are_fresh(class),
            "reinitialize would change a cell"
        );
        // Only an empty magazine and no unused span can end in 6.
        let may_fail = handle.count(class) == 0 && self.spans.len() == self.limit;
        if may_fail {
            self.read_scratch(0);
        }
        let Some(block) = self.heaps[heap].allocate(class) else {
            assert!(may_fail, "6 with a span unused or a block cached");
            self.check_six();
            return Answer::refusal(6);
        };
        let used = door::words_used() as u64;
        self.see_new_spans();
        let (span, offset) = self.place_of(block);
        self.mark_out(span, offset);
        Answer {
            number: 0,
            span: span as u64,
            offset: offset as u64,
            words: used,
        }
    }

    fn read_scratch(&mut self, which: usize) {
        let mut table = std::mem::take(&mut self.scratch[which]);
        self.read(&mut table);
        self.scratch[which] = table;
    }

    /// An orphan adopted in vain changes cells; without heap exits nothing may.
    fn check_six(&mut self) {
        self.read_scratch(1);
        let same = self.scratch[0] == self.scratch[1];
        assert!(same || self.exited.contains(&true), "6 changed a cell");
    }

    fn free(&mut self, heap: usize, span: u64, offset: u64) -> Option<Answer> {
        let (number, place) = (span as usize, offset as usize);
        if !self.take_out(number, place) {
            return None;
        }
        self.heaps[heap].free(self.spans[number].address + place);
        Some(Answer {
            number: 0,
            span,
            offset,
            words: 0,
        })
    }

    fn see_new_spans(&mut self) {
        for number in self.spans.len()..mem::spans_created() {
            let address = mem::span_address(number);
            self.numbers.insert(address, number);
            self.spans.push(SpanSeen {
                address,
                class: door::span_record(address).class,
                out: [0; 64],
            });
        }
    }

    fn place_of(&self, block: usize) -> (usize, usize) {
        let address = door::span_of(block);
        (self.numbers[&address], block - address)
    }

    /// The slot that starts at `offset` of a span, if there is one.
    fn slot(&self, span: usize, offset: usize) -> Option<usize> {
        let class = self.spans.get(span)?.class;
        let size = door::slot_size(class);
        let slot = offset / size;
        (offset % size == 0 && slot < door::slots_per_span(class)).then_some(slot)
    }

    fn mark_out(&mut self, span: usize, offset: usize) {
        let slot = self.slot(span, offset).expect("a block between two slots");
        let word = &mut self.spans[span].out[slot / 64];
        let bit = 1 << (slot % 64);
        assert!(*word & bit == 0, "a block given twice");
        *word |= bit;
    }

    fn take_out(&mut self, span: usize, offset: usize) -> bool {
        let Some(slot) = self.slot(span, offset) else {
            return false;
        };
        let word = &mut self.spans[span].out[slot / 64];
        let bit = 1 << (slot % 64);
        let was_out = *word & bit != 0;
        *word &= !bit;
        was_out
    }

    pub fn spans_used(&self) -> u64 {
        self.spans.len() as u64
    }

    /// Class and owner of a span in use.
    pub fn class_and_owner(&self, span: u64) -> (usize, u64) {
        let seen = &self.spans[span as usize];
        (
            seen.class,
            self.owner(door::span_record(seen.address).owner),
        )
    }

    /// Heap ids there grow over all tables of the process, so heap p is the p-th id of this one.
    fn owner(&self, id: u64) -> u64 {
        id - self.heaps[0].id()
    }

    fn link(&self, address: Option<usize>) -> u64 {
        address.map_or(0, |address| self.numbers[&address] as u64 + 1)
    }

    /// Fronts of the pool of orphaned spans, class by class.
    pub fn pool(&self) -> Vec<u64> {
        (0..CLASSES)
            .map(|class| self.link(door::pool_front(class)))
            .collect()
    }

    /// The original's state in the order of the lent table.
    pub fn table(&self) -> Table {
        let mut table = Table::fresh(self.heaps.len(), self.limit);
        self.read(&mut table);
        table
    }

    /// Spans are never given back, so the cells of unused ones in `table` are 0 already.
    fn read(&self, table: &mut Table) {
        table.used = self.spans.len() as u64;
        for (number, seen) in self.spans.iter().enumerate() {
            let bits = &mut table.bits[number * BITS_A_SPAN..][..BITS_A_SPAN];
            door::put_bits(seen.address, bits);
            let record = door::span_record(seen.address);
            table.spans[number * RECORD..][..RECORD].copy_from_slice(&[
                record.class as u64,
                self.owner(record.owner),
                record.occupied,
                self.link(record.previous),
                self.link(record.next),
            ]);
        }
        for (heap, handle) in self.heaps.iter().enumerate() {
            self.put_heap(table, heap, handle);
        }
    }

    fn put_heap(&self, table: &mut Table, heap: usize, handle: &HeapHandle) {
        let entries = &mut table.entries[heap * ENTRIES_A_HEAP..][..ENTRIES_A_HEAP];
        let mut written = 0;
        for (cell, entry) in entries.iter_mut().zip(handle.entries()) {
            *cell = self.entry(entry);
            written += 1;
        }
        assert_eq!(written, ENTRIES_A_HEAP);
        for class in 0..CLASSES {
            let heads = &mut table.heads[(heap * CLASSES + class) * HEADS..][..HEADS];
            let fronts = handle.fronts(class).map(|front| self.link(front));
            heads[..4].copy_from_slice(&fronts);
            heads[4] = handle.count(class) as u64;
        }
    }

    /// A cell never written is null there and 0 here.
    fn entry(&self, block: usize) -> u64 {
        if block == 0 {
            return 0;
        }
        let (span, offset) = self.place_of(block);
        let slot = self.slot(span, offset).expect("an entry between two slots");
        span as u64 * SLOTS + slot as u64
    }
}
