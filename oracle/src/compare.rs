//! `compare`: the compiled leaves beside the original's, answer by answer and word by word.
//! Built by `oracle/compare` alone, which links the static library of the crate `leaves`.

use crate::{allocator::door, call::number, random::Random};

#[repr(C)]
struct Found {
    word: u64,
    mask: u64,
}

// A slice is passed as its start and its length.
extern "C" {
    fn laggersten_leaf_class(size: u64, alignment: u64) -> u64;
    fn laggersten_leaf_slot(slot: u64, offset: u64) -> u64;
    fn laggersten_leaf_fresh(b: *mut u64, bn: usize, s: *mut u64, sn: usize, span: u64, slots: u64);
    fn laggersten_leaf_claim(
        b: *mut u64,
        bn: usize,
        s: *mut u64,
        sn: usize,
        span: u64,
        max: u64,
        random: u64,
    ) -> Found;
    fn laggersten_leaf_release(
        b: *mut u64,
        bn: usize,
        s: *mut u64,
        sn: usize,
        span: u64,
        slot: u64,
    );
    fn laggersten_leaf_fold(b: *mut u64, bn: usize, s: *mut u64, sn: usize, span: u64);
}

const NO_CLASS: u64 = 48;
const NO_SLOT: u64 = 4096;
const LARGEST_SIZE: u64 = 131_200;
/// The lent span is the second of three, so that its neighbours show a store out of place.
const SPAN: u64 = 1;

/// All alignments to 40, and each power of two to 2^63 with its neighbours.
fn alignments() -> Vec<u64> {
    let powers = (0..64).flat_map(|k| [(1u64 << k) - 1, 1 << k, (1 << k) + 1]);
    let mut all: Vec<u64> = (0..=40).chain(powers).collect();
    all.retain(|alignment| *alignment <= 1 << 63);
    all.sort_unstable();
    all.dedup();
    all
}

fn classes() -> Result<u64, String> {
    let mut pairs = 0;
    for alignment in alignments() {
        for size in 0..=LARGEST_SIZE {
            let theirs = door::choose_class(size as usize, alignment as usize);
            let theirs = theirs.map_or(NO_CLASS, |class| class as u64);
            let ours = unsafe { laggersten_leaf_class(size, alignment) };
            if ours != theirs {
                return Err(format!(
                    "class of {size}, {alignment}: {ours}, the original {theirs}"
                ));
            }
            pairs += 1;
        }
    }
    Ok(pairs)
}

/// Every slot start of every class and the offsets beside it; the first offset past the span.
fn slots() -> Result<u64, String> {
    let mut offsets = 0;
    for class in 0..door::SIZE_CLASS_COUNT {
        let (size, slots) = (door::slot_size(class), door::slots_per_span(class));
        for offset in (0..slots).flat_map(|q| [q * size, q * size + 1, (q + 1) * size - 1]) {
            let theirs = door::slot_index(class, offset);
            let expected = if theirs * size == offset {
                theirs as u64
            } else {
                NO_SLOT
            };
            let ours = unsafe { laggersten_leaf_slot(size as u64, offset as u64) };
            if ours != expected {
                return Err(format!(
                    "slot at {offset} of {size}: {ours}, the original {theirs}"
                ));
            }
            offsets += 1;
        }
        let past = unsafe { laggersten_leaf_slot(size as u64, (slots * size) as u64) };
        if past != NO_SLOT {
            return Err(format!("slot past a span of {size}: {past}"));
        }
    }
    Ok(offsets)
}

/// One span here and there.
struct Pair {
    slots: u64,
    bits: Vec<u64>,
    spans: Vec<u64>,
    theirs: crate::allocator::door::Bare,
}

impl Pair {
    fn new(class: usize, fill: u64) -> Self {
        let slots = door::slots_per_span(class) as u64;
        let mut pair = Self {
            slots,
            bits: vec![fill; 390],
            spans: vec![fill; 15],
            theirs: door::bare_occupancy(class),
        };
        pair.bits[195..260].fill(0);
        let (b, bn, s, sn) = pair.lent();
        unsafe { laggersten_leaf_fresh(b, bn, s, sn, SPAN, slots) };
        pair
    }

    fn lent(&mut self) -> (*mut u64, usize, *mut u64, usize) {
        (
            self.bits.as_mut_ptr(),
            self.bits.len(),
            self.spans.as_mut_ptr(),
            self.spans.len(),
        )
    }

    fn taken(&self) -> Vec<u64> {
        let set = |q: &u64| self.bits[131 + (q / 64) as usize] >> (q % 64) & 1 == 1;
        (0..self.slots).filter(set).collect()
    }

    fn claim(&mut self, max: u64, random: u64) -> Result<(), String> {
        let theirs = self.theirs.claim(max as u32, random);
        let theirs = theirs.map_or((64, 0), |(word, mask)| (word as u64, mask));
        let (b, bn, s, sn) = self.lent();
        let ours = unsafe { laggersten_leaf_claim(b, bn, s, sn, SPAN, max, random) };
        if (ours.word, ours.mask) != theirs {
            let (word, mask) = (ours.word, ours.mask);
            return Err(format!(
                "claim of {max} by {random}: {word} {mask:x}, the original {theirs:x?}"
            ));
        }
        Ok(())
    }

    fn release(&mut self, slot: u64) {
        self.theirs.release(slot as u16);
        let (b, bn, s, sn) = self.lent();
        unsafe { laggersten_leaf_release(b, bn, s, sn, SPAN, slot) };
    }

    /// Some taken slots are pending, and are folded in.
    fn fold(&mut self, random: &mut Random) {
        for slot in self.taken() {
            if random.chance(30) {
                self.bits[196 + (slot / 64) as usize] |= 1 << (slot % 64);
                self.bits[195] |= 1 << (slot / 64);
            }
        }
        for word in 0..64 {
            self.theirs.release_word(word, self.bits[196 + word]);
        }
        let (b, bn, s, sn) = self.lent();
        unsafe { laggersten_leaf_fold(b, bn, s, sn, SPAN) };
    }

    fn same(&self, fill: u64) -> Result<(), String> {
        let (summary, words, count) = self.theirs.cells();
        let right = self.bits[130] == summary
            && self.bits[131..195] == words
            && self.bits[195..260].iter().all(|cell| *cell == 0)
            && self.spans[7] == count
            && self.bits[..130]
                .iter()
                .chain(&self.bits[260..])
                .all(|cell| *cell == fill);
        right
            .then_some(())
            .ok_or_else(|| "the cells differ".to_string())
    }
}

/// Claims, releases and folds by chance over all classes, every word compared after each.
fn occupancies(operations: u64) -> Result<u64, String> {
    let mut random = Random::new(operations);
    let mut done = 0;
    while done < operations {
        let class = random.below(door::SIZE_CLASS_COUNT as u64) as usize;
        let fill = random.word();
        let mut pair = Pair::new(class, fill);
        pair.same(fill)?;
        for _ in 0..random.between(20, 400) {
            let taken = pair.spans[7];
            match random.below(10) {
                0..=5 => pair.claim(random.below(70), random.word())?,
                6..=8 if taken > 0 => {
                    let slot = *random.choose(&pair.taken());
                    pair.release(slot);
                }
                _ => pair.fold(&mut random),
            }
            pair.same(fill)
                .map_err(|fault| format!("class {class}: {fault}"))?;
            done += 1;
        }
    }
    Ok(done)
}

pub fn command(operations: &str) -> Result<(), String> {
    let operations = number(operations)?;
    println!("classes: {} pairs of size and alignment agree", classes()?);
    println!("slots: {} offsets agree", slots()?);
    println!(
        "occupancy: {} claims, releases and folds agree, cell by cell",
        occupancies(operations)?
    );
    Ok(())
}
