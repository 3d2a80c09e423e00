//! What every table must satisfy, read from the scope and not from the original: a second opinion
//! on the harness itself.

use crate::table::{Table, CLASSES, ENTRIES_A_HEAP, HEADS, RECORD, REMOTE_SUMMARY, SLOTS};

/// Slot sizes by their rule: 16 to 128 by 16, then groups of four with the step doubled.
pub fn slot_sizes() -> Vec<u64> {
    let mut sizes: Vec<u64> = (1..=8).map(|times| times * 16).collect();
    let mut step = 32;
    while sizes.len() < CLASSES {
        for _ in 0..4 {
            sizes.push(sizes[sizes.len() - 1] + step);
        }
        step *= 2;
    }
    sizes
}

pub fn slots(size: u64) -> u64 {
    (131072 / size).clamp(8, 4096)
}

pub fn capacity(size: u64) -> usize {
    (4096 / size).clamp(8, 64) as usize
}

/// The fault, or nothing. Only for tables without heap exits.
pub fn check(table: &Table, heaps: usize, limit: usize) -> Result<(), String> {
    let sizes = slot_sizes();
    let used = table.used as usize;
    ensure(used <= limit, || "more spans than the limit".to_string())?;
    for span in 0..limit {
        if span < used {
            check_span(table, span, heaps, &sizes)
                .map_err(|fault| format!("span {span}: {fault}"))?;
        } else {
            let clear = table.words(span).iter().chain(table.record(span));
            ensure(clear.copied().all(|cell| cell == 0), || {
                format!("unused span {span} written")
            })?;
        }
    }
    check_lists(table, heaps, &sizes)?;
    check_magazines(table, heaps, &sizes)
}

fn ensure(holds: bool, fault: impl FnOnce() -> String) -> Result<(), String> {
    if holds {
        Ok(())
    } else {
        Err(fault())
    }
}

/// The bits of word `word` that stand for slots of a span of `slots` slots.
pub fn in_range(word: usize, slots: u64) -> u64 {
    let below = slots.saturating_sub(64 * word as u64).min(64);
    match below {
        64 => u64::MAX,
        _ => (1 << below) - 1,
    }
}

fn check_span(table: &Table, span: usize, heaps: usize, sizes: &[u64]) -> Result<(), String> {
    let record = table.record(span);
    let (class, owner, occupied) = (record[0] as usize, record[1] as usize, record[2]);
    ensure(class < CLASSES && owner < heaps, || {
        "no such class or owner".into()
    })?;
    let slots = slots(sizes[class]);
    let words = table.words(span);
    let (mut count, mut pending_count, mut fresh_after_fold) = (0, 0, true);
    for word in 0..64 {
        let (local, pending) = (words[1 + word], words[REMOTE_SUMMARY + 1 + word]);
        let range = in_range(word, slots);
        ensure(local | range == u64::MAX, || {
            format!("word {word} open past the end")
        })?;
        ensure(pending & !(local & range) == 0, || {
            format!("word {word} pending wrongly")
        })?;
        let full = words[0] >> word & 1 == 1;
        ensure(full == (local == u64::MAX), || {
            format!("summary bit {word}")
        })?;
        let waits = words[REMOTE_SUMMARY] >> word & 1 == 1;
        ensure(waits == (pending != 0), || {
            format!("remote summary bit {word}")
        })?;
        count += (local & range).count_ones() as u64;
        pending_count += pending.count_ones() as u64;
        fresh_after_fold &= local & !pending == !range;
    }
    ensure(count == occupied, || {
        format!("occupied {occupied}, bits {count}")
    })?;
    // Such a span can be reactivated within a call, and `reinitialize` must find nothing to do.
    ensure(pending_count != occupied || fresh_after_fold, || {
        "reinitialize would change a cell".into()
    })
}

/// Each used span stands in exactly one list or reserve, the one its count asks for.
fn check_lists(table: &Table, heaps: usize, sizes: &[u64]) -> Result<(), String> {
    let mut seen = vec![false; table.used as usize];
    for heap in 0..heaps {
        for class in 0..CLASSES {
            let heads = table.head(heap, class);
            for list in 0..4 {
                let fault = |what: &str| format!("heap {heap} class {class} list {list}: {what}");
                let (mut previous, mut link) = (0, heads[list]);
                while link != 0 {
                    ensure(link <= table.used, || fault("link past the used spans"))?;
                    let span = link as usize - 1;
                    ensure(!seen[span], || fault("a span met twice"))?;
                    seen[span] = true;
                    let record = table.record(span);
                    let at_home = record[0] == class as u64 && record[1] == heap as u64;
                    ensure(at_home, || fault("a span of another class or heap"))?;
                    let (full, empty) = (record[2] == slots(sizes[class]), record[2] == 0);
                    let fits = [!full && !empty, full, empty, empty][list];
                    ensure(fits, || fault("a span whose count belongs elsewhere"))?;
                    ensure(record[3] == previous, || fault("links disagree"))?;
                    ensure(list != 3 || record[4] == 0, || {
                        fault("a reserve with a link")
                    })?;
                    (previous, link) = (link, record[4]);
                }
            }
        }
    }
    ensure(seen.iter().all(|seen| *seen), || {
        "a used span in no list".into()
    })
}

fn check_magazines(table: &Table, heaps: usize, sizes: &[u64]) -> Result<(), String> {
    for heap in 0..heaps {
        let mut base = heap * ENTRIES_A_HEAP;
        for class in 0..CLASSES {
            let count = table.head(heap, class)[HEADS - 1] as usize;
            let fault = |what: &str| format!("heap {heap} class {class} magazine: {what}");
            ensure(count <= capacity(sizes[class]), || {
                fault("count above capacity")
            })?;
            let entries = &table.entries[base..][..count];
            for (place, entry) in entries.iter().enumerate() {
                ensure(!entries[..place].contains(entry), || {
                    fault("an entry twice")
                })?;
                let (span, slot) = ((entry / SLOTS) as usize, (entry % SLOTS) as usize);
                ensure((span as u64) < table.used, || fault("an unused span"))?;
                let record = &table.spans[span * RECORD..][..RECORD];
                let at_home = record[0] == class as u64 && record[1] == heap as u64;
                ensure(at_home, || fault("a slot of another class or heap"))?;
                ensure((slot as u64) < slots(sizes[class]), || {
                    fault("no such slot")
                })?;
                let bit = |word: usize| table.words(span)[word] >> (slot % 64) & 1;
                ensure(bit(1 + slot / 64) == 1, || fault("a free slot"))?;
                ensure(bit(REMOTE_SUMMARY + 1 + slot / 64) == 0, || {
                    fault("a pending slot")
                })?;
            }
            base += capacity(sizes[class]);
        }
        ensure(base == (heap + 1) * ENTRIES_A_HEAP, || {
            "magazine layout".into()
        })?;
    }
    Ok(())
}
