//! `oracle cover`: what a call list makes happen, read off the tables before and after each call.

use std::{collections::BTreeSet, fmt, io::Read};

use crate::{
    allocator::door,
    call::{Answer, Call, List},
    libc::mem,
    play,
    table::Table,
};

#[derive(Default)]
pub struct Cover {
    lists: u64,
    calls: u64,
    allocations: u64,
    fives: u64,
    sixes: u64,
    local_frees: u64,
    remote_frees: u64,
    refills: u64,
    flushes: u64,
    reserves: u64,
    empty_pushes: u64,
    from_reserve: u64,
    from_empty: u64,
    full_reclaims: u64,
    partial_folds: u64,
    spans_created: u64,
    max_words: u64,
    classes: BTreeSet<u64>,
    heaps: BTreeSet<u64>,
}

pub fn command() -> Result<(), String> {
    let mut text = String::new();
    std::io::stdin()
        .read_to_string(&mut text)
        .map_err(|error| error.to_string())?;
    let mut cover = Cover::default();
    for list in play::read_lists(&text)? {
        cover.add(&list)?;
    }
    print!("{cover}");
    Ok(())
}

impl Cover {
    pub fn add(&mut self, list: &List) -> Result<(), String> {
        let mut before = Table::fresh(list.heaps as usize, list.spans as usize);
        let mut discards = 0;
        play::play_seen(list, |driver, call, answer| {
            let after = driver.table();
            let demoted = mem::discards() - discards;
            discards = mem::discards();
            self.see(call, answer, &before, &after, demoted);
            before = after;
            Ok(())
        })?;
        self.lists += 1;
        self.spans_created += before.used;
        for span in 0..before.used as usize {
            self.classes.insert(before.record(span)[0]);
        }
        Ok(())
    }

    fn see(&mut self, call: &Call, answer: &Answer, before: &Table, after: &Table, demoted: u64) {
        self.calls += 1;
        self.heaps.insert(call.heap());
        self.max_words = self.max_words.max(answer.words);
        let heap = call.heap() as usize;
        match *call {
            Call::Allocate { size, align, .. } => {
                match answer.number {
                    5 => self.fives += 1,
                    6 => self.sixes += 1,
                    _ => self.allocations += 1,
                }
                self.refills += (answer.words > 1) as u64;
                if let Some(class) = door::choose_class(size as usize, align as usize) {
                    self.see_moves(heap, class, before, after, demoted);
                }
            }
            Call::Free { span, .. } => {
                let record = before.record(span as usize);
                let class = record[0] as usize;
                if record[1] != heap as u64 {
                    self.remote_frees += 1;
                    return;
                }
                self.local_frees += 1;
                let capacity = door::magazine_layout(class).1 as u64;
                self.flushes += (before.head(heap, class)[4] == capacity) as u64;
                self.see_moves(heap, class, before, after, demoted);
            }
            Call::Exit { .. } => {}
        }
    }

    /// A reserve or empty span comes in by becoming empty and leaves by reactivation, so what left
    /// is what was there, plus what came, less what is there.
    fn see_moves(
        &mut self,
        heap: usize,
        class: usize,
        before: &Table,
        after: &Table,
        demoted: u64,
    ) {
        let mut emptied = 0;
        for span in 0..before.used as usize {
            let record = before.record(span);
            if record[0] != class as u64 || record[1] != heap as u64 {
                continue;
            }
            let (occupied, pending) = (record[2], before.pending(span));
            let folded = pending > 0 && after.pending(span) == 0;
            let was_full = occupied == door::slots_per_span(class) as u64;
            self.full_reclaims += (folded && was_full) as u64;
            self.partial_folds += (folded && !was_full) as u64;
            // A full span whose every slot was pending is empty once folded; a partial one is
            // claimed from at once. A flush can leave a span empty at the end of the call.
            let by_fold = folded && was_full && pending == occupied;
            let by_flush = !folded && occupied > 0 && after.record(span)[2] == 0;
            emptied += (by_fold || by_flush) as u64;
        }
        let held = |table: &Table| (table.head(heap, class)[3] != 0) as u64;
        self.reserves += emptied;
        self.empty_pushes += demoted;
        self.from_reserve += held(before) + emptied - demoted - held(after);
        self.from_empty +=
            empty_spans(before, heap, class) + demoted - empty_spans(after, heap, class);
    }
}

fn empty_spans(table: &Table, heap: usize, class: usize) -> u64 {
    let (mut length, mut link) = (0, table.head(heap, class)[2]);
    while link != 0 {
        length += 1;
        link = table.record(link as usize - 1)[4];
    }
    length
}

impl fmt::Display for Cover {
    fn fmt(&self, out: &mut fmt::Formatter) -> fmt::Result {
        let lines = [
            ("lists", self.lists),
            ("calls", self.calls),
            ("allocations", self.allocations),
            ("refused 5", self.fives),
            ("refused 6", self.sixes),
            ("local frees", self.local_frees),
            ("remote frees", self.remote_frees),
            ("refills", self.refills),
            ("flushes", self.flushes),
            ("became reserve", self.reserves),
            ("pushed on empty", self.empty_pushes),
            ("reactivated from reserve", self.from_reserve),
            ("reactivated from empty", self.from_empty),
            ("full spans reclaimed", self.full_reclaims),
            ("partial spans folded", self.partial_folds),
            ("spans created", self.spans_created),
            ("most words used", self.max_words),
            ("classes", self.classes.len() as u64),
            ("heaps", self.heaps.len() as u64),
        ];
        lines
            .iter()
            .try_for_each(|(name, count)| writeln!(out, "{name}: {count}"))
    }
}
