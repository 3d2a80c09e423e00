//! "What comes back": the scope's table of refusals, read for single calls on a sound table, and calls
//! by chance for it. It knows what is out from the answers, and which spans are in use from the original;
//! it looks at no cell of the library's, so it is a second opinion where the original cannot be asked.

use std::collections::HashSet;

use crate::{
    allocator::door,
    call::{Answer, Call, Words},
    driver::Driver,
    random::Random,
    sanity::{slot_sizes, slots},
};

const LARGEST: u64 = 131_072;
const RECENT: usize = 64;

/// The answers so far, as far as refusals depend on them.
pub struct History {
    heaps: u64,
    spans: u64,
    sizes: Vec<u64>,
    out: HashSet<(u64, u64)>,
    /// Blocks given back lately, which may be cached, pending, free, or out again.
    recent: Vec<(u64, u64)>,
}

impl History {
    pub fn new(heaps: u64, spans: u64) -> Self {
        Self {
            heaps,
            spans,
            sizes: slot_sizes(),
            out: HashSet::new(),
            recent: Vec::new(),
        }
    }

    pub fn add(&mut self, call: &Call, answer: &Answer) {
        if answer.number != 0 {
            return;
        }
        let block = (answer.span, answer.offset);
        if let Call::Allocate { .. } = call {
            self.out.insert(block);
            return;
        }
        self.out.remove(&block);
        if self.recent.len() == RECENT {
            self.recent.remove(0);
        }
        self.recent.push(block);
    }

    /// The refusal's number by the scope; `None` where the call is served or refused with 6.
    pub fn refusal(&self, call: &Call, driver: &Driver) -> Option<u64> {
        if call.heap() >= self.heaps {
            return Some(3);
        }
        match call {
            Call::Allocate {
                size, align, words, ..
            } => {
                let few = matches!(words, Words::Given(words) if words.len() < door::WORDS_LENT);
                // 131072 is a power of two, so an alignment is raised above it exactly when it is above it.
                let large = *size > LARGEST || *align > LARGEST;
                match (few, large) {
                    (true, _) => Some(4),
                    (false, true) => Some(5),
                    (false, false) => None,
                }
            }
            Call::Free { span, offset, .. } => {
                if *span >= driver.spans_used() {
                    return Some(7);
                }
                let size = self.sizes[driver.class_and_owner(*span).0];
                if offset % size != 0 || offset / size >= slots(size) {
                    return Some(7);
                }
                (!self.out.contains(&(*span, *offset))).then_some(8)
            }
            Call::Exit { .. } => None,
        }
    }

    /// A call by chance, mostly one that is refused, often for several reasons at once.
    pub fn stray(&self, driver: &Driver, random: &mut Random) -> Call {
        let heap = match random.below(8) {
            0 => self.heaps,
            1 => *random.choose(&[self.heaps + 1, 1 << 32, u64::MAX]),
            _ => random.below(self.heaps),
        };
        if random.chance(40) {
            return self.stray_allocation(heap, random);
        }
        let (span, offset) = match random.below(4) {
            0 if !self.recent.is_empty() => *random.choose(&self.recent),
            _ => self.stray_block(driver, random),
        };
        Call::Free { heap, span, offset }
    }

    fn stray_allocation(&self, heap: u64, random: &mut Random) -> Call {
        let any = random.word();
        let size = *random.choose(&[0, 16, LARGEST, LARGEST + 1, u64::MAX, any]);
        let align = *random.choose(&[
            0,
            1,
            LARGEST,
            LARGEST + 1,
            1 << 63,
            (1 << 63) + 1,
            u64::MAX,
            any,
        ]);
        let lent = door::WORDS_LENT as u64;
        let length = match random.below(4) {
            0 => random.below(lent),
            1 => lent - 1,
            _ => lent + random.below(2),
        };
        let words = Words::Given((0..length).map(|_| random.word()).collect());
        Call::Allocate {
            heap,
            size,
            align,
            words,
        }
    }

    /// A span in use or beside those, and an offset at a slot's start or beside it.
    fn stray_block(&self, driver: &Driver, random: &mut Random) -> (u64, u64) {
        let used = driver.spans_used();
        let span = match random.below(8) {
            0 => *random.choose(&[used, used + 1, self.spans, 1 << 52, u64::MAX]),
            _ if used == 0 => 0,
            _ => random.below(used),
        };
        let class = match span < used {
            true => driver.class_and_owner(span).0,
            false => 0,
        };
        let size = self.sizes[class];
        let start = random.below(slots(size)) * size;
        let offset = match random.below(10) {
            0 => start + 1,
            1 => start + random.below(size),
            2 => slots(size) * size,
            3 => *random.choose(&[u64::MAX, u64::MAX - size + 1, 1 << 63]),
            _ => start,
        };
        (span, offset)
    }
}
