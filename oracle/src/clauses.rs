//! "A table is sound exactly when": the scope's sentence, clause by clause, on any content whatever.
//! It follows that sentence and shares no code with the proved check (the README says how far that
//! makes it a second opinion). It names every clause that fails, not only the first, so that a test can
//! see whether each of them was tried.

use crate::{
    sanity::{capacity, in_range, slot_sizes, slots},
    table::{Table, CLASSES, HEADS, REMOTE_SUMMARY, SLOTS},
};

/// The clauses in the scope's order.
#[derive(Clone, Copy, PartialEq, Eq)]
pub enum Clause {
    Within,
    Class,
    Owner,
    Listed,
    Linked,
    ReserveLinks,
    NoOther,
    Occupied,
    PastEnd,
    Summary,
    RemoteSummary,
    PendingOccupied,
    PendingInRange,
    PartialName,
    ReserveName,
    FullName,
    EmptyName,
    EntryDistinct,
    EntryUsed,
    EntryInRange,
    EntryOccupied,
    EntryNotPending,
    EntryHeap,
    EntryClass,
    Count,
}

/// Each clause with the scope's words for it.
pub const CLAUSES: [(Clause, &str); 25] = [
    (Clause::Within, "used spans are within the limit"),
    (Clause::Class, "with valid class"),
    (Clause::Owner, "and owner"),
    (
        Clause::Listed,
        "each is in one list or reserve of its owner and class",
    ),
    (Clause::Linked, "linked both ways"),
    (Clause::ReserveLinks, "a reserve with no links"),
    (Clause::NoOther, "lists and reserves hold no other span"),
    (Clause::Occupied, "occupied equals the in-range set bits"),
    (Clause::PastEnd, "those past the end are set"),
    (Clause::Summary, "both summaries are right: local"),
    (Clause::RemoteSummary, "both summaries are right: remote"),
    (
        Clause::PendingOccupied,
        "a pending bit only on an occupied slot",
    ),
    (Clause::PendingInRange, "a pending bit only in range"),
    (Clause::PartialName, "partial: neither empty nor full"),
    (Clause::ReserveName, "a reserve is empty"),
    (Clause::FullName, "the others as named: full"),
    (Clause::EmptyName, "the others as named: empty"),
    (Clause::EntryDistinct, "entries are distinct"),
    (Clause::EntryUsed, "entries are of used spans"),
    (Clause::EntryInRange, "entries are in range"),
    (Clause::EntryOccupied, "entries are occupied"),
    (Clause::EntryNotPending, "entries are not pending"),
    (Clause::EntryHeap, "entries are of that heap"),
    (Clause::EntryClass, "entries are of that class"),
    (Clause::Count, "counts are within capacity"),
];

/// The clauses that fail.
#[derive(Clone, Copy, Default, PartialEq, Eq)]
pub struct Faults(u32);

impl Faults {
    fn note(&mut self, clause: Clause, holds: bool) {
        if !holds {
            self.0 |= 1 << clause as u32;
        }
    }

    pub fn none(self) -> bool {
        self.0 == 0
    }

    pub fn has(self, clause: Clause) -> bool {
        self.0 >> clause as u32 & 1 == 1
    }

    pub fn named(self) -> Vec<&'static str> {
        let failed = |pair: &&(Clause, &'static str)| self.has(pair.0);
        CLAUSES.iter().filter(failed).map(|pair| pair.1).collect()
    }

    /// Whether this clause fails and no other.
    pub fn only(self, clause: Clause) -> bool {
        self.0 == 1 << clause as u32
    }
}

/// The slots of a span and the capacity of a magazine, class by class.
pub struct Reading {
    slots: Vec<u64>,
    capacities: Vec<usize>,
}

impl Reading {
    pub fn new() -> Self {
        let sizes = slot_sizes();
        Self {
            slots: sizes.iter().map(|size| slots(*size)).collect(),
            capacities: sizes.iter().map(|size| capacity(*size)).collect(),
        }
    }

    pub fn capacity(&self, class: usize) -> usize {
        self.capacities[class]
    }

    pub fn slots(&self, class: usize) -> u64 {
        self.slots[class]
    }

    /// The in-range set bits of a span, were it of that class.
    pub fn set_bits(&self, table: &Table, span: usize, class: usize) -> u64 {
        let words = table.words(span)[1..65].iter().enumerate();
        words
            .map(|(word, local)| (local & in_range(word, self.slots[class])).count_ones() as u64)
            .sum()
    }

    pub fn faults(&self, table: &Table, heaps: usize, limit: usize) -> Faults {
        let mut faults = Faults::default();
        faults.note(Clause::Within, table.used <= limit as u64);
        // Past the limit there are no cells to speak of.
        if faults.none() {
            for span in 0..table.used as usize {
                self.span(table, span, heaps, &mut faults);
            }
            self.lists(table, heaps, &mut faults);
            self.magazines(table, heaps, &mut faults);
        }
        faults
    }

    /// A class that is not there has no slots, and its span no range to speak of.
    fn span(&self, table: &Table, span: usize, heaps: usize, faults: &mut Faults) {
        let (record, words) = (table.record(span), table.words(span));
        faults.note(Clause::Owner, record[1] < heaps as u64);
        faults.note(Clause::Class, record[0] < CLASSES as u64);
        let slots = self
            .slots
            .get(usize::try_from(record[0]).unwrap_or(CLASSES));
        let mut occupied = 0;
        for word in 0..64 {
            let (local, pending) = (words[1 + word], words[REMOTE_SUMMARY + 1 + word]);
            let full = words[0] & 1 << word != 0;
            let waits = words[REMOTE_SUMMARY] & 1 << word != 0;
            faults.note(Clause::Summary, full == (local == u64::MAX));
            faults.note(Clause::RemoteSummary, waits == (pending != 0));
            faults.note(Clause::PendingOccupied, pending & !local == 0);
            if let Some(slots) = slots {
                let range = in_range(word, *slots);
                faults.note(Clause::PastEnd, !local & !range == 0);
                faults.note(Clause::PendingInRange, pending & !range == 0);
                occupied += (local & range).count_ones() as u64;
            }
        }
        if slots.is_some() {
            faults.note(Clause::Occupied, record[2] == occupied);
        }
    }

    /// Every list is followed to its end, to a span that is not used, or to one it met before.
    fn lists(&self, table: &Table, heaps: usize, faults: &mut Faults) {
        let used = table.used as usize;
        let mut places = vec![0; used];
        let mut met_by = vec![usize::MAX; used];
        let is_used = |link: u64| link <= table.used;
        for row in 0..heaps * CLASSES {
            let (heap, class) = (row / CLASSES, row % CLASSES);
            let heads = table.head(heap, class);
            let own = |span: usize| {
                table.record(span)[0] == class as u64 && table.record(span)[1] == heap as u64
            };
            let full = self.slots[class];
            for (list, name) in [
                (0, Clause::PartialName),
                (1, Clause::FullName),
                (2, Clause::EmptyName),
            ] {
                let (mut before, mut link) = (0, heads[list]);
                while link != 0 {
                    faults.note(Clause::NoOther, is_used(link));
                    if !is_used(link) {
                        break;
                    }
                    let span = link as usize - 1;
                    let record = table.record(span);
                    faults.note(Clause::NoOther, own(span));
                    faults.note(Clause::Linked, record[3] == before);
                    let fits = [
                        record[2] != 0 && record[2] != full,
                        record[2] == full,
                        record[2] == 0,
                    ];
                    faults.note(name, fits[list]);
                    places[span] += own(span) as u32;
                    if met_by[span] == row * HEADS + list {
                        faults.note(Clause::Listed, false);
                        break;
                    }
                    met_by[span] = row * HEADS + list;
                    (before, link) = (link, record[4]);
                }
            }
            let kept = heads[3];
            faults.note(Clause::NoOther, is_used(kept));
            if kept != 0 && is_used(kept) {
                let span = kept as usize - 1;
                let record = table.record(span);
                faults.note(Clause::NoOther, own(span));
                faults.note(Clause::ReserveLinks, record[3] == 0 && record[4] == 0);
                faults.note(Clause::ReserveName, record[2] == 0);
                places[span] += own(span) as u32;
            }
        }
        faults.note(Clause::Listed, places.iter().all(|times| *times == 1));
    }

    fn magazines(&self, table: &Table, heaps: usize, faults: &mut Faults) {
        let mut rest = table.entries.as_slice();
        for row in 0..heaps * CLASSES {
            let (heap, class) = (row / CLASSES, row % CLASSES);
            let (magazine, after) = rest.split_at(self.capacities[class]);
            rest = after;
            let count = table.head(heap, class)[4];
            faults.note(Clause::Count, count <= magazine.len() as u64);
            let mut entries = magazine[..magazine.len().min(count as usize)].to_vec();
            for entry in &entries {
                let (span, slot) = (entry / SLOTS, entry % SLOTS);
                faults.note(Clause::EntryInRange, slot < self.slots[class]);
                faults.note(Clause::EntryUsed, span < table.used);
                if span < table.used {
                    let record = table.record(span as usize);
                    let bit = |from: usize| {
                        table.words(span as usize)[from + slot as usize / 64] >> (slot % 64) & 1
                    };
                    faults.note(Clause::EntryClass, record[0] == class as u64);
                    faults.note(Clause::EntryHeap, record[1] == heap as u64);
                    faults.note(Clause::EntryOccupied, bit(1) == 1);
                    faults.note(Clause::EntryNotPending, bit(REMOTE_SUMMARY + 1) == 0);
                }
            }
            entries.sort_unstable();
            let twice = entries.windows(2).any(|pair| pair[0] == pair[1]);
            faults.note(Clause::EntryDistinct, !twice);
        }
    }
}
