//! `damage`: sound tables from runs of the original, damaged cell by cell. The compiled check must
//! answer each as `clauses` reads the scope. Built by `oracle/damage` alone, which links the static
//! library of the crate `check_leaf`.

use crate::{
    call::number,
    clauses::{Reading, CLAUSES},
    mixes::{Mix, MIXES},
    play,
    random::Random,
    recipe::Recipe,
    table::{Table, BITS_A_SPAN, CLASSES, ENTRIES_A_HEAP, HEADS, RECORD, REMOTE_SUMMARY, SLOTS},
};

// A slice is passed as its start and its length.
extern "C" {
    fn laggersten_leaf_sound(
        heaps: u64,
        spans: u64,
        bits: *const u64,
        bits_length: usize,
        records: *const u64,
        records_length: usize,
        entries: *const u64,
        entries_length: usize,
        heads: *const u64,
        heads_length: usize,
        used: u64,
    ) -> u64;
}

const CALLS: usize = 400;
const SOUND: u64 = 0;
const NOT_STATED: u64 = 1;
const UNSOUND: u64 = 2;

/// What a damage was done to.
#[derive(Clone, Copy)]
enum Kind {
    LocalSummary,
    LocalWord,
    RemoteSummary,
    RemoteWord,
    Class,
    Owner,
    Occupied,
    Previous,
    Next,
    UnusedSpan,
    Entry,
    StaleEntry,
    Head,
    Count,
    Used,
    MendedLocal,
    MendedByAll,
    MendedRemote,
    HeadsMoved,
    MagazineFilled,
    MagazineOverfilled,
    SpanFewer,
}

const KINDS: [(Kind, &str); 22] = [
    (Kind::LocalSummary, "local summary"),
    (Kind::LocalWord, "local word"),
    (Kind::RemoteSummary, "remote summary"),
    (Kind::RemoteWord, "remote word"),
    (Kind::Class, "class"),
    (Kind::Owner, "owner"),
    (Kind::Occupied, "occupied"),
    (Kind::Previous, "previous"),
    (Kind::Next, "next"),
    (Kind::UnusedSpan, "a cell of an unused span"),
    (Kind::Entry, "entry below the count"),
    (Kind::StaleEntry, "entry at or above the count"),
    (Kind::Head, "list head or reserve"),
    (Kind::Count, "magazine's count"),
    (Kind::Used, "used"),
    (Kind::MendedLocal, "local word, summary and count mended"),
    (
        Kind::MendedByAll,
        "local word, summary mended, count mended by all bits",
    ),
    (Kind::MendedRemote, "remote word, summary mended"),
    (Kind::HeadsMoved, "two heads of a class exchanged or alike"),
    (Kind::MagazineFilled, "magazine filled with right entries"),
    (
        Kind::MagazineOverfilled,
        "magazine filled with right entries, and one more",
    ),
    (
        Kind::SpanFewer,
        "every span used, and the table lent as one span shorter",
    ),
];

#[derive(Clone, Copy)]
enum Part {
    Bits,
    Spans,
    Entries,
    Heads,
    Used,
}

/// A table of a run, with the heaps and spans it was made for.
struct Sample {
    table: Table,
    heaps: usize,
    spans: usize,
}

/// What a table should have so that its damages reach every clause.
const FEATURES: [&str; 7] = [
    "reserves",
    "empty lists",
    "pending bits",
    "full magazines",
    "used at the limit",
    "spans of several heaps",
    "spans of several classes",
];

impl Sample {
    fn features(&self, reading: &Reading) -> [bool; 7] {
        let table = &self.table;
        let rows = || (0..self.heaps * CLASSES).map(|row| (row % CLASSES, self.row(row)));
        let used = table.used as usize;
        let several = |field: usize| {
            (1..used).any(|span| table.record(span)[field] != table.record(0)[field])
        };
        [
            rows().any(|(_, heads)| heads[3] != 0),
            rows().any(|(_, heads)| heads[2] != 0),
            (0..used).any(|span| table.pending(span) != 0),
            rows().any(|(class, heads)| heads[4] as usize == reading.capacity(class)),
            used == self.spans,
            several(1),
            several(0),
        ]
    }

    fn row(&self, row: usize) -> &[u64] {
        self.table.head(row / CLASSES, row % CLASSES)
    }

    fn cell(&mut self, part: Part, index: usize) -> &mut u64 {
        match part {
            Part::Bits => &mut self.table.bits[index],
            Part::Spans => &mut self.table.spans[index],
            Part::Entries => &mut self.table.entries[index],
            Part::Heads => &mut self.table.heads[index],
            Part::Used => &mut self.table.used,
        }
    }

    /// Every cell of the five tables, with what it is.
    fn cells(&self, reading: &Reading) -> Vec<(Part, usize, Kind)> {
        let used = self.table.used as usize;
        let mut cells = vec![(Part::Used, 0, Kind::Used)];
        for index in 0..self.table.bits.len() {
            let kind = match index % BITS_A_SPAN {
                _ if index / BITS_A_SPAN >= used => Kind::UnusedSpan,
                0 => Kind::LocalSummary,
                1..=64 => Kind::LocalWord,
                REMOTE_SUMMARY => Kind::RemoteSummary,
                _ => Kind::RemoteWord,
            };
            cells.push((Part::Bits, index, kind));
        }
        let fields = [
            Kind::Class,
            Kind::Owner,
            Kind::Occupied,
            Kind::Previous,
            Kind::Next,
        ];
        for index in 0..self.table.spans.len() {
            let kind = match index / RECORD < used {
                true => fields[index % RECORD],
                false => Kind::UnusedSpan,
            };
            cells.push((Part::Spans, index, kind));
        }
        let mut index = 0;
        for row in 0..self.heaps * CLASSES {
            for place in 0..reading.capacity(row % CLASSES) {
                let kind = match (place as u64) < self.row(row)[4] {
                    true => Kind::Entry,
                    false => Kind::StaleEntry,
                };
                cells.push((Part::Entries, index, kind));
                index += 1;
            }
        }
        for index in 0..self.table.heads.len() {
            let kind = match index % HEADS {
                4 => Kind::Count,
                _ => Kind::Head,
            };
            cells.push((Part::Heads, index, kind));
        }
        cells
    }

    /// What stands in the same place of another span, class or magazine.
    fn another(&self, part: Part, index: usize, random: &mut Random) -> u64 {
        let span = random.below(self.table.used.max(1));
        let row = random.below((self.heaps * CLASSES) as u64) as usize;
        match part {
            Part::Bits => self.table.words(span as usize)[index % BITS_A_SPAN],
            Part::Spans if index % RECORD < 3 => self.table.record(span as usize)[index % RECORD],
            Part::Spans => span + 1,
            Part::Entries if random.chance(50) => *random.choose(&self.table.entries),
            Part::Entries => span * SLOTS + self.table.entries[index] % SLOTS,
            Part::Heads if index % HEADS == 4 => self.row(row)[4],
            Part::Heads => span + 1,
            Part::Used => random.below(self.spans as u64 + 1),
        }
    }

    /// A number that is only just wrong, or perhaps right.
    fn near(&self, part: Part, index: usize, random: &mut Random) -> u64 {
        match part {
            Part::Bits => self.table.bits[index] ^ 1 << random.below(64),
            Part::Entries => random.below(self.table.used + 1) * SLOTS + random.below(SLOTS),
            _ => random.below(2 * self.spans as u64 + 2),
        }
    }

    /// The summaries and the count of a span as its words ask.
    fn mend(&mut self, span: usize, reading: &Reading) {
        let words = &mut self.table.bits[span * BITS_A_SPAN..][..BITS_A_SPAN];
        (words[0], words[REMOTE_SUMMARY]) = (0, 0);
        for word in 0..64 {
            words[0] |= ((words[1 + word] == u64::MAX) as u64) << word;
            words[REMOTE_SUMMARY] |= ((words[REMOTE_SUMMARY + 1 + word] != 0) as u64) << word;
        }
        let class = self.table.record(span)[0] as usize;
        let occupied = reading.set_bits(&self.table, span, class);
        self.table.spans[span * RECORD + 2] = occupied;
    }

    /// The count as one has it who takes the bits past the end for set: all set bits but so many.
    fn count_all(&mut self, span: usize, reading: &Reading) {
        let class = self.table.record(span)[0] as usize;
        let words = &self.table.words(span)[1..REMOTE_SUMMARY];
        let all: u64 = words.iter().map(|word| word.count_ones() as u64).sum();
        let past = SLOTS - reading.slots(class);
        self.table.spans[span * RECORD + 2] = all.wrapping_sub(past);
    }

    /// Entries that this magazine could hold besides its own.
    fn out_blocks(&self, row: usize, base: usize, reading: &Reading) -> Vec<u64> {
        let (heap, class) = ((row / CLASSES) as u64, (row % CLASSES) as u64);
        let held = &self.table.entries[base..][..self.row(row)[4] as usize];
        let of_row = |span: &u64| self.table.record(*span as usize)[..2] == [class, heap];
        let slots = reading.slots(class as usize);
        let blocks = (0..self.table.used)
            .filter(of_row)
            .flat_map(|span| (0..slots).map(move |slot| (span, slot)));
        blocks
            .filter(|(span, slot)| {
                let bit = |from: usize| {
                    let word = self.table.words(*span as usize)[from + *slot as usize / 64];
                    word >> (slot % 64) & 1 == 1
                };
                bit(1) && !bit(REMOTE_SUMMARY + 1)
            })
            .map(|(span, slot)| span * SLOTS + slot)
            .filter(|entry| !held.contains(entry))
            .collect()
    }

    /// The lengths that heaps and spans ask for.
    fn lengths(&self) -> [usize; 4] {
        [
            self.spans * BITS_A_SPAN,
            self.spans * RECORD,
            self.heaps * ENTRIES_A_HEAP,
            self.heaps * CLASSES * HEADS,
        ]
    }

    fn asked(&self) -> u64 {
        self.asked_with(self.heaps as u64, self.spans as u64, self.lengths())
    }

    /// The compiled check, told these numbers and lengths; no length is above the true one.
    fn asked_with(&self, heaps: u64, spans: u64, lengths: [usize; 4]) -> u64 {
        let table = &self.table;
        let lent = [&table.bits, &table.spans, &table.entries, &table.heads];
        for (cells, length) in lent.iter().zip(lengths) {
            assert!(length <= cells.len());
        }
        unsafe {
            laggersten_leaf_sound(
                heaps,
                spans,
                table.bits.as_ptr(),
                lengths[0],
                table.spans.as_ptr(),
                lengths[1],
                table.entries.as_ptr(),
                lengths[2],
                table.heads.as_ptr(),
                lengths[3],
                table.used,
            )
        }
    }
}

/// The table of a run that has most features, the latest of those.
fn richest(mix: &'static Mix, seed: u64, reading: &Reading) -> Result<Sample, String> {
    let mut random = Random::new(!seed);
    let (heaps, spans) = (random.between(1, 6), random.between(4, 24));
    let recipe = Recipe {
        mix,
        seed,
        heaps,
        spans,
        calls: CALLS,
    };
    let mut best = (0, None);
    play::play_seen(&recipe.list()?, |driver, _, _| {
        let sample = Sample {
            table: driver.table(),
            heaps: heaps as usize,
            spans: spans as usize,
        };
        let score = sample.features(reading).iter().filter(|has| **has).count();
        if score >= best.0 {
            best = (score, Some(sample));
        }
        Ok(())
    })?;
    best.1.ok_or_else(|| "an empty list".to_string())
}

/// What was tried, and what came of it.
struct Tally {
    reading: Reading,
    tables: u64,
    with: [u64; 7],
    /// Damages of each kind that left the table sound, and that did not.
    judged: [[u64; 2]; KINDS.len()],
    /// Damages that broke each clause, and those that broke it alone.
    broken: [[u64; 2]; CLAUSES.len()],
    refusals: u64,
}

impl Tally {
    fn judge(&mut self, sample: &Sample, kind: Kind) -> Result<(), String> {
        let faults = self
            .reading
            .faults(&sample.table, sample.heaps, sample.spans);
        let (answer, expected) = (sample.asked(), if faults.none() { SOUND } else { UNSOUND });
        if answer != expected {
            return Err(format!(
                "{}: the check answers {answer}, the scope's sentence {expected} ({})",
                KINDS[kind as usize].1,
                faults.named().join("; ")
            ));
        }
        self.judged[kind as usize][!faults.none() as usize] += 1;
        for (clause, _) in CLAUSES {
            self.broken[clause as usize][0] += faults.has(clause) as u64;
            self.broken[clause as usize][1] += faults.only(clause) as u64;
        }
        Ok(())
    }

    /// One table, and all its damages.
    fn try_table(&mut self, mut sample: Sample, random: &mut Random) -> Result<(), String> {
        let whole = sample.table.clone();
        let faults = self.reading.faults(&whole, sample.heaps, sample.spans);
        if !faults.none() || sample.asked() != SOUND {
            return Err(format!("not sound undamaged: {:?}", faults.named()));
        }
        self.tables += 1;
        for (count, has) in self.with.iter_mut().zip(sample.features(&self.reading)) {
            *count += has as u64;
        }
        self.lengths(&sample)?;
        self.one_cell(&mut sample, random)?;
        self.mended_words(&mut sample, random)?;
        self.moved_heads(&mut sample)?;
        self.filled_magazines(&mut sample)?;
        self.one_span_fewer(&mut sample)?;
        assert!(sample.table == whole, "a damage was left behind");
        Ok(())
    }

    fn one_cell(&mut self, sample: &mut Sample, random: &mut Random) -> Result<(), String> {
        for (part, index, kind) in sample.cells(&self.reading) {
            let kept = *sample.cell(part, index);
            let values = [
                0,
                kept.wrapping_add(1),
                kept.wrapping_sub(1),
                u64::MAX,
                sample.another(part, index, random),
                sample.near(part, index, random),
                random.word(),
            ];
            for value in values.into_iter().filter(|value| *value != kept) {
                *sample.cell(part, index) = value;
                self.judge(sample, kind)
                    .map_err(|fault| format!("{value} for {kept} in cell {index}: {fault}"))?;
            }
            *sample.cell(part, index) = kept;
        }
        Ok(())
    }

    /// A word of a span with what counts its bits mended, so that other clauses decide alone.
    fn mended_words(&mut self, sample: &mut Sample, random: &mut Random) -> Result<(), String> {
        for span in 0..sample.table.used as usize {
            let (words, record) = (
                sample.table.words(span).to_vec(),
                sample.table.record(span).to_vec(),
            );
            for place in (1..BITS_A_SPAN).filter(|place| *place != REMOTE_SUMMARY) {
                let kind = match place < REMOTE_SUMMARY {
                    true => Kind::MendedLocal,
                    false => Kind::MendedRemote,
                };
                let (kept, other) = (words[place], random.word());
                let flipped = kept ^ 1 << random.below(64);
                let values = [0, u64::MAX, flipped, kept & other, kept | other, other];
                for value in values.into_iter().filter(|value| *value != kept) {
                    sample.table.bits[span * BITS_A_SPAN + place] = value;
                    sample.mend(span, &self.reading);
                    let told = |fault| format!("{value} in word {place} of {span}: {fault}");
                    self.judge(sample, kind).map_err(told)?;
                    if place < REMOTE_SUMMARY {
                        sample.count_all(span, &self.reading);
                        self.judge(sample, Kind::MendedByAll).map_err(told)?;
                    }
                }
                sample.table.bits[span * BITS_A_SPAN..][..BITS_A_SPAN].copy_from_slice(&words);
                sample.table.spans[span * RECORD..][..RECORD].copy_from_slice(&record);
            }
        }
        Ok(())
    }

    /// Two of the four heads of a class: exchanged, or the one written over the other.
    fn moved_heads(&mut self, sample: &mut Sample) -> Result<(), String> {
        for row in 0..sample.heaps * CLASSES {
            let kept = sample.row(row).to_vec();
            for (one, other) in (0..4).flat_map(|one| (0..4).map(move |other| (one, other))) {
                if kept[one] == kept[other] {
                    continue;
                }
                for value in [kept[one], kept[other]] {
                    sample.table.heads[row * HEADS + one] = kept[other];
                    sample.table.heads[row * HEADS + other] = value;
                    self.judge(sample, Kind::HeadsMoved)
                        .map_err(|fault| format!("lists {one} and {other} of {row}: {fault}"))?;
                }
                sample.table.heads[row * HEADS..][..HEADS].copy_from_slice(&kept);
            }
        }
        Ok(())
    }

    /// A magazine with as many right entries as it may hold; and one more, in the first cell of the
    /// next one, which holds none: the count is then all that is wrong.
    fn filled_magazines(&mut self, sample: &mut Sample) -> Result<(), String> {
        let mut base = 0;
        for row in 0..sample.heaps * CLASSES - 1 {
            let capacity = self.reading.capacity(row % CLASSES);
            let (from, count) = (base, sample.row(row)[4] as usize);
            base += capacity;
            let blocks = sample.out_blocks(row, from, &self.reading);
            if count + blocks.len() <= capacity || sample.row(row + 1)[4] != 0 {
                continue;
            }
            let kept = sample.table.entries[from..=from + capacity].to_vec();
            let more = capacity + 1 - count;
            sample.table.entries[from + count..][..more].copy_from_slice(&blocks[..more]);
            for (kind, filled) in [
                (Kind::MagazineFilled, capacity),
                (Kind::MagazineOverfilled, capacity + 1),
            ] {
                sample.table.heads[row * HEADS + 4] = filled as u64;
                self.judge(sample, kind)
                    .map_err(|fault| format!("{filled} entries in row {row}: {fault}"))?;
            }
            sample.table.heads[row * HEADS + 4] = count as u64;
            sample.table.entries[from..=from + capacity].copy_from_slice(&kept);
        }
        Ok(())
    }

    /// The last span used stands past the end of what is lent, with cells that are right.
    fn one_span_fewer(&mut self, sample: &mut Sample) -> Result<(), String> {
        if sample.table.used as usize == sample.spans && sample.spans > 1 {
            sample.spans -= 1;
            self.judge(sample, Kind::SpanFewer)?;
            sample.spans += 1;
        }
        Ok(())
    }

    /// Numbers and lengths that are not as stated.
    fn lengths(&mut self, sample: &Sample) -> Result<(), String> {
        let (heaps, spans) = (sample.heaps as u64, sample.spans as u64);
        let right = sample.lengths();
        let mut wrong = vec![
            (0, spans, right),
            (17, spans, right),
            (heaps + 1, spans, right),
            (u64::MAX, spans, right),
            (heaps, 0, right),
            (heaps, 1025, right),
            (heaps, spans + 1, right),
            (heaps, u64::MAX, right),
        ];
        for part in 0..4 {
            for length in [0, right[part] - 1] {
                let mut lengths = right;
                lengths[part] = length;
                wrong.push((heaps, spans, lengths));
            }
        }
        for (heaps, spans, lengths) in wrong {
            let answer = sample.asked_with(heaps, spans, lengths);
            if answer != NOT_STATED {
                return Err(format!(
                    "{heaps} heaps, {spans} spans, lengths {lengths:?}: the check answers {answer}"
                ));
            }
            self.refusals += 1;
        }
        Ok(())
    }

    fn print(&self) {
        println!("{} sound tables, of them with", self.tables);
        for (name, count) in FEATURES.iter().zip(self.with) {
            println!("  {name}: {count}");
        }
        println!("damages by what was damaged: unsound, sound");
        for ((_, name), [sound, unsound]) in KINDS.iter().zip(self.judged) {
            println!("  {name}: {unsound}, {sound}");
        }
        println!("damages by the clause they broke: in all, and that one alone");
        for ((_, words), [all, alone]) in CLAUSES.iter().zip(self.broken) {
            println!("  {words}: {all}, {alone}");
        }
        let sums = self.judged.iter().fold([0, 0], |sum, [sound, unsound]| {
            [sum[0] + sound, sum[1] + unsound]
        });
        println!(
            "{} damages agree, {} unsound and {} sound; {} calls with a wrong number or length refused",
            sums[0] + sums[1],
            sums[1],
            sums[0],
            self.refusals
        );
    }

    /// A test that cannot fail tests nothing.
    fn all_seen(&self) -> Result<(), String> {
        for ((_, words), [all, _]) in CLAUSES.iter().zip(self.broken) {
            if all == 0 {
                return Err(format!("no damage broke the clause: {words}"));
            }
        }
        for (name, count) in FEATURES.iter().zip(self.with) {
            if count == 0 {
                return Err(format!("no table with {name}"));
            }
        }
        Ok(())
    }
}

pub fn command(lists: &str) -> Result<(), String> {
    let mut tally = Tally {
        reading: Reading::new(),
        tables: 0,
        with: [0; 7],
        judged: [[0; 2]; KINDS.len()],
        broken: [[0; 2]; CLAUSES.len()],
        refusals: 0,
    };
    for seed in 0..number(lists)? {
        for mix in &MIXES {
            let sample = richest(mix, seed, &tally.reading)?;
            tally
                .try_table(sample, &mut Random::new(seed))
                .map_err(|fault| format!("{} {seed}: {fault}", mix.name))?;
        }
    }
    tally.print();
    tally.all_seen()
}
