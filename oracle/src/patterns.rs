//! Call lists of one plain pattern each, beside the generator's mixes. As there, the original is
//! driven while a list is made, so every free names a block that is out.

use std::collections::VecDeque;

use crate::{
    allocator::door,
    call::{Answer, Call, List, Words},
    driver::Driver,
    mixes::size_of_class,
    random::Random,
    table::CLASSES,
};

/// A block that is out, with the heap that asked for it.
#[derive(Clone, Copy)]
struct Block {
    span: u64,
    offset: u64,
    owner: u64,
}

#[derive(Clone, Copy)]
struct Request {
    heap: u64,
    class: usize,
    size: u64,
    align: u64,
}

pub struct Pattern {
    pub name: &'static str,
    /// Some calls more.
    step: fn(&mut Maker),
}

pub static PATTERNS: [Pattern; 5] = [
    Pattern {
        name: "alternating",
        step: Maker::alternate,
    },
    Pattern {
        name: "burst",
        step: Maker::burst,
    },
    Pattern {
        name: "handover",
        step: Maker::hand_over,
    },
    Pattern {
        name: "exhaustion",
        step: Maker::exhaust,
    },
    Pattern {
        name: "every class",
        step: Maker::every_class,
    },
];

/// A few calls may come over what is wanted: a step ends what it began.
pub fn make(
    pattern: &Pattern,
    seed: u64,
    heaps: u64,
    spans: u64,
    calls: usize,
) -> Result<List, String> {
    let mut maker = Maker {
        random: Random::new(seed),
        driver: Driver::fresh(heaps, spans)?,
        list: List {
            heaps,
            spans,
            calls: Vec::with_capacity(calls),
        },
        granted: Vec::new(),
        sixes: 0,
        out: Vec::new(),
        wanted: calls,
    };
    while maker.list.calls.len() < calls {
        (pattern.step)(&mut maker);
    }
    Ok(maker.list)
}

struct Maker {
    random: Random,
    driver: Driver,
    list: List,
    /// Requests that were granted: asked again when most others are refused.
    granted: Vec<Request>,
    sixes: usize,
    /// What a step leaves out for a later one to free.
    out: Vec<Block>,
    wanted: usize,
}

impl Maker {
    fn request_of(&mut self, heap: u64, class: usize) -> Request {
        Request {
            heap,
            class,
            size: size_of_class(class, &mut self.random),
            align: *self.random.choose(&[0, 1, 3, 8, 16]),
        }
    }

    fn request(&mut self) -> Request {
        let crowded = self.sixes * 10 > self.list.calls.len();
        if crowded && !self.granted.is_empty() && self.random.chance(90) {
            return *self.random.choose(&self.granted);
        }
        let heap = self.random.below(self.list.heaps);
        let class = self.random.below(CLASSES as u64) as usize;
        self.request_of(heap, class)
    }

    /// Of a class whose spans are soon full.
    fn request_for_few_slots(&mut self) -> Request {
        let heap = self.random.below(self.list.heaps);
        let class = self.random.between(40, CLASSES as u64 - 1) as usize;
        self.request_of(heap, class)
    }

    /// Mostly words of a seed; sometimes words that are no progression, and more than are needed.
    fn words(&mut self) -> Words {
        if self.random.chance(80) {
            return Words::Seed(self.random.word());
        }
        let length = door::WORDS_LENT as u64 + self.random.below(4);
        Words::Given((0..length).map(|_| self.random.word()).collect())
    }

    fn make(&mut self, call: Call) -> Answer {
        let answer = self.driver.apply(&call).expect("a call in the domain");
        self.list.calls.push(call);
        answer
    }

    fn allocate(&mut self, request: Request) -> Option<Block> {
        let words = self.words();
        let answer = self.make(Call::Allocate {
            heap: request.heap,
            size: request.size,
            align: request.align,
            words,
        });
        if answer.number != 0 {
            self.sixes += 1;
            return None;
        }
        self.granted.push(request);
        Some(Block {
            span: answer.span,
            offset: answer.offset,
            owner: request.heap,
        })
    }

    fn free(&mut self, heap: u64, block: Block) {
        self.make(Call::Free {
            heap,
            span: block.span,
            offset: block.offset,
        });
    }

    /// A heap that is not `owner`, if there are two.
    fn other_heap(&mut self, owner: u64) -> u64 {
        match self.list.heaps {
            1 => owner,
            heaps => (owner + 1 + self.random.below(heaps - 1)) % heaps,
        }
    }

    fn shuffle(&mut self, blocks: &mut [Block]) {
        for place in 1..blocks.len() {
            blocks.swap(place, self.random.below(place as u64 + 1) as usize);
        }
    }

    /// A block and back, again and again.
    fn alternate(&mut self) {
        let request = self.request();
        for _ in 0..self.random.between(10, 150) {
            let Some(block) = self.allocate(request) else {
                break;
            };
            self.free(request.heap, block);
        }
        // One that stays, so that the next ones do not meet the same magazine.
        if self.random.chance(30) {
            self.allocate(request);
        }
    }

    /// So many blocks, then all of them back: first come first, last come first, or in any order.
    fn burst(&mut self) {
        let request = self.request();
        let capacity = door::magazine_layout(request.class).1 as u64;
        let mut blocks = Vec::new();
        for _ in 0..self.random.between(1, capacity * 6) {
            let Some(block) = self.allocate(request) else {
                break;
            };
            blocks.push(block);
        }
        match self.random.below(3) {
            0 => {}
            1 => blocks.reverse(),
            _ => self.shuffle(&mut blocks),
        }
        for block in blocks {
            self.free(request.heap, block);
        }
    }

    /// One heap takes blocks, another gives them back after some delay.
    fn hand_over(&mut self) {
        let request = self.request();
        let consumer = self.other_heap(request.heap);
        let mut delay = self.random.between(0, 100) as usize;
        let mut queue = VecDeque::new();
        for _ in 0..self.random.between(20, 300) {
            match self.allocate(request) {
                Some(block) => queue.push_back(block),
                None if queue.is_empty() => break,
                // No more comes before some are given back.
                None => delay = delay.min(queue.len() - 1),
            }
            if queue.len() > delay || self.random.chance(5) {
                if let Some(block) = queue.pop_front() {
                    self.free(consumer, block);
                }
            }
        }
        for block in queue {
            self.free(consumer, block);
        }
    }

    /// Until 6 has come some times; then a part goes back, and the same is asked again.
    fn exhaust(&mut self) {
        let request = match self.random.chance(50) {
            true => self.request_for_few_slots(),
            false => self.request(),
        };
        let most = self.wanted as u64 / 2;
        self.take_until_refused(request, most);
        let mut blocks = std::mem::take(&mut self.out);
        self.shuffle(&mut blocks);
        let kept = match self.random.below(3) {
            0 => 0,
            1 => blocks.len() / 2,
            _ => blocks.len().saturating_sub(1),
        };
        self.out = blocks.split_off(blocks.len() - kept);
        let by_others = *self.random.choose(&[0, 50, 100]);
        for block in blocks {
            let heap = match self.random.chance(by_others) {
                true => self.other_heap(block.owner),
                false => block.owner,
            };
            self.free(heap, block);
        }
        self.take_until_refused(request, most / 4);
    }

    fn take_until_refused(&mut self, request: Request, most: u64) {
        let mut refusals = self.random.between(1, 3);
        for _ in 0..most {
            match self.allocate(request) {
                Some(block) => self.out.push(block),
                None => refusals -= 1,
            }
            if refusals == 0 {
                break;
            }
        }
    }

    /// One heap asks for each class in turn; then half of what is out goes back, by any heap.
    fn every_class(&mut self) {
        let heap = self.random.below(self.list.heaps);
        for class in 0..CLASSES {
            let request = self.request_of(heap, class);
            for _ in 0..self.random.between(1, 3) {
                match self.allocate(request) {
                    Some(block) => self.out.push(block),
                    None => break,
                }
            }
        }
        let mut blocks = std::mem::take(&mut self.out);
        self.shuffle(&mut blocks);
        self.out = blocks.split_off(blocks.len() / 2);
        for block in blocks {
            let heap = match self.random.chance(50) {
                true => block.owner,
                false => self.random.below(self.list.heaps),
            };
            self.free(heap, block);
        }
    }
}
