//! `calls`: lists of every mix and pattern, played on the original and on the proved library at once.
//! Every answer is compared, and every cell of the five tables at intervals, after each 6 and at the end
//! of a list. Between them come calls that the original cannot be asked, compared with the scope's table
//! of refusals. Built by `oracle/calls` alone, which links the static library of the crate `call_leaves`.

use std::collections::{BTreeSet, HashSet};

use crate::{
    allocator::door,
    call::{number, Answer, Call, List},
    driver::{Driver, MAX_HEAPS, MAX_SPANS},
    lent::{Lent, Told},
    mixes::{Mix, MIXES},
    patterns::{self, Pattern, PATTERNS},
    play,
    random::Random,
    recipe::Recipe,
    refusals::History,
    table::{BITS_A_SPAN, CLASSES},
};

const NOT_STATED: u64 = 1;
const UNSOUND: u64 = 2;

/// How a list is made and watched.
struct Plan {
    heaps: u64,
    spans: u64,
    calls: usize,
    /// Calls from one comparison of all cells to the next.
    interval: u64,
    /// One stray call comes for about so many calls.
    stray_each: u64,
}

impl Plan {
    /// The library checks the whole table at each call and we compare all of it, so most tables are
    /// small; every fourth round has large ones.
    fn new(round: u64, random: &mut Random) -> Self {
        if round % 4 == 3 {
            return Self {
                heaps: random.between(1, MAX_HEAPS),
                spans: *random.choose(&[65, 200, 500, 1023, MAX_SPANS, MAX_SPANS]),
                calls: 3000,
                interval: 100,
                stray_each: 50,
            };
        }
        let (heaps, spans) = match round % 4 {
            0 => (MAX_HEAPS, 64),
            _ => (
                *random.choose(&[1, 2, 2, 3, 4, 6, 9, 13, 15, MAX_HEAPS]),
                *random.choose(&[1, 2, 3, 4, 6, 9, 14, 21, 33, 48]),
            ),
        };
        Self {
            heaps,
            spans,
            calls: 1000,
            interval: random.between(1, 16),
            stray_each: 4,
        }
    }

    /// Spans of many words, emptied word by word, are what a refill of 65 words needs.
    fn of_mix(mix: &Mix, round: u64, random: &mut Random) -> Self {
        let plan = Self::new(round, random);
        if mix.name != "scatter" || round % 2 != 0 {
            return plan;
        }
        Self {
            heaps: 2,
            spans: random.between(1, 3),
            calls: 10000,
            ..plan
        }
    }

    /// Long enough to take every span there is, of the classes with eight slots a span.
    fn of_pattern(pattern: &Pattern, round: u64, random: &mut Random) -> Self {
        let mut plan = Self::new(round, random);
        if pattern.name == "exhaustion" {
            plan.calls = plan.calls.max(20 * plan.spans as usize);
        }
        plan
    }
}

#[derive(Default)]
struct Counts {
    lists: u64,
    calls: u64,
    allocations: u64,
    frees: u64,
    fives: u64,
    sixes: u64,
    recoveries: u64,
    remote_frees: u64,
    refills: u64,
    flushes: u64,
    spans_created: u64,
    most_spans: u64,
    /// Lists at whose end no span was unused.
    all_spans_used: u64,
    most_words: u64,
    classes: BTreeSet<usize>,
    heaps: BTreeSet<u64>,
    heaps_lent: BTreeSet<u64>,
    spans_lent: BTreeSet<u64>,
    large_table_calls: u64,
    tables: u64,
    cells: u64,
    /// Calls the original was not asked, by the number they were refused with.
    refused: [u64; 9],
    differences: u64,
}

/// One list being played on both sides.
struct Pair<'a> {
    lent: Lent,
    plan: &'a Plan,
    history: History,
    random: Random,
    since: u64,
    /// Heap and class of requests whose last answer was 6.
    refused: HashSet<(u64, usize)>,
}

fn class_of(call: &Call) -> Option<usize> {
    match call {
        Call::Allocate { size, align, .. } => door::choose_class(*size as usize, *align as usize),
        _ => None,
    }
}

impl Pair<'_> {
    fn step(
        &mut self,
        counts: &mut Counts,
        driver: &Driver,
        call: &Call,
        theirs: &Answer,
    ) -> Result<(), String> {
        self.count(counts, driver, call, theirs);
        let ours = self.lent.call(call);
        if ours != *theirs {
            return Err(format!("{call}: {ours} here, {theirs} there"));
        }
        self.history.add(call, theirs);
        self.since += 1;
        if self.since >= self.plan.interval || theirs.number == 6 {
            self.compare(counts, driver)
                .map_err(|fault| format!("after {call}: {fault}"))?;
        }
        if self.random.below(self.plan.stray_each) == 0 {
            self.stray(counts, driver)?;
        }
        Ok(())
    }

    /// What the call is, seen while our table is still as before it.
    fn count(&mut self, counts: &mut Counts, driver: &Driver, call: &Call, theirs: &Answer) {
        counts.calls += 1;
        counts.large_table_calls += (self.plan.spans > 64) as u64;
        counts.most_words = counts.most_words.max(theirs.words);
        counts.heaps.insert(call.heap());
        let heap = call.heap();
        if let Call::Free { span, .. } = call {
            counts.frees += 1;
            let (class, owner) = driver.class_and_owner(*span);
            if owner != heap {
                counts.remote_frees += 1;
            } else {
                let capacity = door::magazine_layout(class).1 as u64;
                let count = self.lent.table.head(heap as usize, class)[4];
                counts.flushes += (count == capacity) as u64;
            }
            return;
        }
        let Some(class) = class_of(call) else {
            counts.fives += 1;
            return;
        };
        if theirs.number == 6 {
            counts.sixes += 1;
            self.refused.insert((heap, class));
            return;
        }
        counts.allocations += 1;
        counts.refills += (theirs.words > 1) as u64;
        counts.recoveries += self.refused.remove(&(heap, class)) as u64;
        counts.classes.insert(class);
    }

    fn compare(&mut self, counts: &mut Counts, driver: &Driver) -> Result<(), String> {
        self.since = 0;
        counts.tables += 1;
        counts.cells += self.lent.cells();
        self.lent.same(&driver.table())
    }

    /// A call that the original is not asked: the scope's number, and no cell changed.
    fn stray(&mut self, counts: &mut Counts, driver: &Driver) -> Result<(), String> {
        let call = self.history.stray(driver, &mut self.random);
        let before = self.lent.table.clone();
        let (ours, expected) = match self.random.below(16) {
            0 => {
                let told = self.misstated();
                let number = self.lent.renew(told);
                if number != NOT_STATED {
                    return Err(format!("a fresh table told {told:?}: {number}"));
                }
                (self.lent.call_told(told, &call), NOT_STATED)
            }
            1 if before.used > 0 => {
                let span = self.random.below(before.used) as usize;
                let bit = 1 << self.random.below(64);
                self.lent.table.bits[span * BITS_A_SPAN] ^= bit;
                let ours = self.lent.call(&call);
                self.lent.table.bits[span * BITS_A_SPAN] ^= bit;
                (ours, UNSOUND)
            }
            _ => match self.history.refusal(&call, driver) {
                Some(expected) => (self.lent.call(&call), expected),
                None => return Ok(()),
            },
        };
        if ours != Answer::refusal(expected) {
            return Err(format!("{call}: {ours} here, {expected} by the scope"));
        }
        counts.refused[expected as usize] += 1;
        self.lent
            .same(&before)
            .map_err(|fault| format!("{call}, refused with {expected}, changed {fault}"))
    }

    /// A number or a length that is not as stated; also slices longer than they should be, by telling
    /// of fewer heaps or spans.
    fn misstated(&mut self) -> Told {
        let mut told = self.lent.told;
        match self.random.below(3) {
            0 => {
                told.heaps = *self
                    .random
                    .choose(&[0, told.heaps - 1, told.heaps + 1, 17, u64::MAX])
            }
            1 => {
                told.spans =
                    *self
                        .random
                        .choose(&[0, told.spans - 1, told.spans + 1, 1025, u64::MAX])
            }
            _ => {
                let part = self.random.below(4) as usize;
                told.lengths[part] = *self.random.choose(&[0, 1, told.lengths[part] - 1]);
            }
        }
        told
    }
}

impl Counts {
    fn play(&mut self, name: &str, seed: u64, plan: &Plan, list: Result<List, String>) {
        let outcome = list.and_then(|list| self.play_list(seed, plan, &list));
        self.lists += 1;
        if let Err(fault) = outcome {
            self.differences += 1;
            let Plan {
                heaps,
                spans,
                calls,
                ..
            } = plan;
            println!("DIFFERENCE in {name} {seed} {heaps} {spans} {calls}: {fault}");
        }
    }

    fn play_list(&mut self, seed: u64, plan: &Plan, list: &List) -> Result<(), String> {
        let mut random = Random::new(!seed);
        let mut pair = Pair {
            lent: Lent::fresh(plan.heaps, plan.spans, &mut random)?,
            plan,
            history: History::new(plan.heaps, plan.spans),
            random,
            since: 0,
            refused: HashSet::new(),
        };
        self.heaps_lent.insert(plan.heaps);
        self.spans_lent.insert(plan.spans);
        // A fresh table on both sides, before the first call.
        pair.compare(self, &Driver::fresh(plan.heaps, plan.spans)?)?;
        let played = play::play_seen(list, |driver, call, theirs| {
            pair.step(self, driver, call, theirs)
        })?;
        self.spans_created += played.table.used;
        self.most_spans = self.most_spans.max(played.table.used);
        self.all_spans_used += (played.table.used == plan.spans) as u64;
        self.tables += 1;
        self.cells += pair.lent.cells();
        pair.lent
            .same(&played.table)
            .map_err(|fault| format!("at the end: {fault}"))
    }

    fn print(&self) {
        let lines = [
            ("lists", self.lists),
            ("calls compared", self.calls),
            (
                "of them on tables of more than 64 spans",
                self.large_table_calls,
            ),
            ("allocations", self.allocations),
            ("frees", self.frees),
            ("refused 5", self.fives),
            ("refused 6", self.sixes),
            ("granted after a 6 of that heap and class", self.recoveries),
            ("remote frees", self.remote_frees),
            ("refills", self.refills),
            ("flushes", self.flushes),
            ("spans created", self.spans_created),
            ("most spans used", self.most_spans),
            ("lists that used every span lent", self.all_spans_used),
            ("most words used", self.most_words),
            ("classes", self.classes.len() as u64),
            ("heaps that called", self.heaps.len() as u64),
            ("tables compared", self.tables),
            ("cells compared", self.cells),
        ];
        lines
            .iter()
            .for_each(|(name, count)| println!("{name}: {count}"));
        for (name, lent) in [("heaps", &self.heaps_lent), ("spans", &self.spans_lent)] {
            if let (Some(least), Some(most)) = (lent.first(), lent.last()) {
                println!("{name} lent: {least} to {most}");
            }
        }
        println!(
            "calls the original was not asked, each refused as the scope says, no cell changed:"
        );
        for (number, count) in self
            .refused
            .iter()
            .enumerate()
            .filter(|(_, count)| **count > 0)
        {
            println!("  refused {number}: {count}");
        }
        println!("differences: {}", self.differences);
    }

    /// A comparison that meets nothing compares nothing.
    fn all_met(&self) -> Result<(), String> {
        let met = [
            ("every class", self.classes.len() == CLASSES),
            ("every heap", self.heaps.len() as u64 == MAX_HEAPS),
            ("refusal 6", self.sixes > 0),
            ("recovery from 6", self.recoveries > 0),
            ("a remote free", self.remote_frees > 0),
            ("a refill", self.refills > 0),
            ("a flush", self.flushes > 0),
        ];
        let strays = [1, 2, 3, 4, 5, 7, 8];
        match met.iter().find(|(_, met)| !met) {
            Some((name, _)) => Err(format!("the lists did not meet {name}")),
            None => match strays.iter().find(|number| self.refused[**number] == 0) {
                Some(number) => Err(format!("no stray call was refused with {number}")),
                None => Ok(()),
            },
        }
    }
}

/// Whole rounds, one list of each mix and pattern in a round, until so many calls were compared or a
/// round showed a difference.
pub fn command(calls: &str, first: &str) -> Result<(), String> {
    let (calls, first) = (number(calls)?, number(first)?);
    let mut counts = Counts::default();
    let mut seed = first;
    while seed == first || (counts.calls < calls && counts.differences == 0) {
        let round = seed - first;
        let mut random = Random::new(seed);
        for mix in &MIXES {
            let plan = Plan::of_mix(mix, round, &mut random);
            let recipe = Recipe {
                mix,
                seed,
                heaps: plan.heaps,
                spans: plan.spans,
                calls: plan.calls,
            };
            counts.play(mix.name, seed, &plan, recipe.list());
        }
        for pattern in &PATTERNS {
            let plan = Plan::of_pattern(pattern, round, &mut random);
            let Plan {
                heaps,
                spans,
                calls,
                ..
            } = plan;
            let list = patterns::make(pattern, seed, heaps, spans, calls);
            counts.play(pattern.name, seed, &plan, list);
        }
        seed += 1;
    }
    println!("seeds {first} to {}", seed - 1);
    counts.print();
    match counts.differences {
        0 => counts.all_met(),
        some => Err(format!("{some} lists differ")),
    }
}
