//! Stands for the original's generator: words come from a script set before each call, so that
//! two implementations can be given the same words. All heaps read the one script.

use std::cell::{Cell, RefCell};

/// Each word of a seeded script is the previous one plus this.
pub const STEP: u64 = 0x9E37_79B9_7F4A_7C15;

/// No call uses more words than these.
pub const WORDS_LENT: usize = 65;

struct Script {
    seeded: Cell<bool>,
    next: Cell<u64>,
    given: RefCell<Vec<u64>>,
    used: Cell<usize>,
}

thread_local! {
    static SCRIPT: Script = const {
        Script {
            seeded: Cell::new(true),
            next: Cell::new(0),
            given: RefCell::new(Vec::new()),
            used: Cell::new(0),
        }
    };
}

impl Script {
    fn take(&self) -> u64 {
        let position = self.used.replace(self.used.get() + 1);
        if self.seeded.get() {
            assert!(position < WORDS_LENT, "more words used than were lent");
            return self.next.replace(self.next.get().wrapping_add(STEP));
        }
        let given = self.given.borrow();
        *given
            .get(position)
            .expect("more words used than were given")
    }
}

/// The next call's words start at `seed`.
pub fn script_from_seed(seed: u64) {
    SCRIPT.with(|script| {
        script.seeded.set(true);
        script.next.set(seed);
        script.used.set(0);
    });
}

/// The next call's words are `words`.
pub fn script_from_words(words: &[u64]) {
    SCRIPT.with(|script| {
        script.seeded.set(false);
        script.given.replace(words.to_vec());
        script.used.set(0);
    });
}

/// Words used since the script was last set.
pub fn words_used() -> usize {
    SCRIPT.with(|script| script.used.get())
}

pub struct HeapRng;

impl HeapRng {
    pub fn from_bytes(_seed: u128) -> Self {
        Self
    }

    pub fn next_u64(&mut self) -> u64 {
        SCRIPT.with(Script::take)
    }

    pub fn index_below(&mut self, bound: usize) -> usize {
        (self.next_u64() % bound as u64) as usize
    }
}
