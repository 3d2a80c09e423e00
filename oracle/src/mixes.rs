//! The mixes a call list can be made of: which sizes are asked for, and which phases come often.

use crate::{allocator::door, random::Random, table::CLASSES};

/// What a run of calls is about.
#[derive(Clone, Copy, PartialEq, Eq)]
pub enum Kind {
    /// Mostly allocations.
    Fill,
    /// Allocations and frees of all sorts, half and half.
    Churn,
    /// Frees by the owner, so that magazines overflow and spans become empty.
    Drain,
    /// Frees by other heaps, so that frees wait for the owner.
    Remote,
    /// One heap allocates what was freed behind its back.
    Regain,
    /// Every block of one span goes back.
    Empty,
    /// Other heaps free one block of each bitmap word, so that a refill needs a claim for each.
    Scatter,
}

pub const KINDS: [Kind; 7] = [
    Kind::Fill,
    Kind::Churn,
    Kind::Drain,
    Kind::Remote,
    Kind::Regain,
    Kind::Empty,
    Kind::Scatter,
];

#[derive(Clone, Copy)]
enum Sizes {
    Between(u64, u64),
    EachClass,
    Aligned,
    /// Two or three neighbouring classes, the first of them in this range.
    Neighbours(u64, u64),
    /// One class in this range.
    One(u64, u64),
}

pub struct Mix {
    pub name: &'static str,
    sizes: Sizes,
    /// How often each kind of phase is begun, in the order of `KINDS`.
    pub weights: [u64; 7],
    /// How many spans a filling phase may ask for; 0 when it goes by the magazine instead.
    pub spans_filled: u64,
}

const EVEN: [u64; 7] = [4, 3, 3, 2, 1, 1, 0];

pub static MIXES: [Mix; 10] = [
    mix("tiny", Sizes::Between(0, 128), EVEN, 0),
    mix("middle", Sizes::Between(513, 16384), EVEN, 0),
    mix("large", Sizes::Between(65536, 131072), EVEN, 0),
    mix("any", Sizes::Between(0, 131072), EVEN, 0),
    mix("classes", Sizes::EachClass, EVEN, 0),
    mix("aligned", Sizes::Aligned, EVEN, 0),
    mix("neighbours", Sizes::Neighbours(12, 45), EVEN, 0),
    mix(
        "remote",
        Sizes::Neighbours(28, 45),
        [4, 1, 1, 6, 3, 2, 0],
        3,
    ),
    mix(
        "bursts",
        Sizes::Neighbours(24, 45),
        [6, 1, 4, 1, 1, 4, 0],
        6,
    ),
    mix("scatter", Sizes::One(0, 15), [3, 1, 0, 1, 1, 0, 6], 2),
];

const fn mix(name: &'static str, sizes: Sizes, weights: [u64; 7], spans_filled: u64) -> Mix {
    Mix {
        name,
        sizes,
        weights,
        spans_filled,
    }
}

pub fn command() -> Result<(), String> {
    MIXES.iter().for_each(|mix| println!("{}", mix.name));
    Ok(())
}

pub fn named(name: &str) -> Result<&'static Mix, String> {
    let found = MIXES.iter().find(|mix| mix.name == name);
    found.ok_or_else(|| format!("no such mix: {name}"))
}

/// A mix with what its list's seed has fixed.
pub struct Requests {
    sizes: Sizes,
    first_class: u64,
    neighbours: u64,
}

impl Requests {
    /// `calls` is the length of the list.
    pub fn new(mix: &Mix, calls: usize, random: &mut Random) -> Self {
        // A list too short to fill a span of the class would show nothing of what One is for.
        let fillable = |class: &u64| door::slots_per_span(*class as usize) <= calls / 2;
        let (first_class, neighbours) = match mix.sizes {
            Sizes::Neighbours(low, high) => (random.between(low, high), random.between(2, 3)),
            Sizes::One(low, high) => {
                let low = (low..high).find(fillable).unwrap_or(high);
                // The lower the class, the more words its spans have.
                let first = random.between(low, high).min(random.between(low, high));
                (first, 1)
            }
            _ => (0, CLASSES as u64),
        };
        Self {
            sizes: mix.sizes,
            first_class,
            neighbours,
        }
    }

    /// A size and an alignment.
    pub fn pick(&self, random: &mut Random) -> (u64, u64) {
        match self.sizes {
            Sizes::Between(low, high) => (random.between(low, high), small_align(random)),
            Sizes::EachClass | Sizes::Neighbours(..) | Sizes::One(..) => {
                let class = self.first_class + random.below(self.neighbours);
                (size_of_class(class as usize, random), small_align(random))
            }
            Sizes::Aligned => aligned(random),
        }
    }
}

fn small_align(random: &mut Random) -> u64 {
    *random.choose(&[0, 1, 1, 2, 3, 4, 8, 9, 16])
}

/// A size that the class is the tightest for; its ends come often.
pub fn size_of_class(class: usize, random: &mut Random) -> u64 {
    let high = door::slot_size(class) as u64;
    let low = match class {
        0 => 0,
        _ => door::slot_size(class - 1) as u64 + 1,
    };
    match random.below(4) {
        0 => low,
        1 => high,
        _ => random.between(low, high),
    }
}

/// Alignments of every sort up to 2^63, some requests beyond the last class.
fn aligned(random: &mut Random) -> (u64, u64) {
    let size = match random.below(3) {
        0 => random.between(0, 256),
        1 => random.between(0, 8192),
        _ => random.between(0, 131072),
    };
    let power = 1 << random.between(0, 17);
    match random.below(100) {
        0 => (131073, 1),
        1 => (u64::MAX - random.below(2), 0),
        2 => (size, 131073),
        3 => (size, 1 << random.between(18, 63)),
        4 => (size, random.between(131073, 1 << 63)),
        5..15 => (size, 0),
        15..30 => (size, random.between(1, power)),
        30..40 => (size, power - 1),
        40..50 => (size, (power + 1).min(131072)),
        _ => (size, power),
    }
}
