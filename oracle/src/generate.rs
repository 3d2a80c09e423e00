//! Seeded call lists. The original is driven while the list is made, so every
//! free names a block that is out.

use std::collections::HashSet;

use crate::{
    allocator::door,
    call::{Answer, Call, List, Words},
    driver::Driver,
    mixes::{Kind, Mix, Requests, KINDS},
    random::Random,
    recipe::Recipe,
};

/// A block that is out.
#[derive(Clone, Copy)]
struct Block {
    span: u64,
    offset: u64,
    class: usize,
    owner: u64,
}

impl Block {
    /// The span and the bitmap word that the block's bit stands in.
    fn word(&self) -> (u64, u64) {
        (
            self.span,
            self.offset / door::slot_size(self.class) as u64 / 64,
        )
    }
}

/// A run of calls about one heap and one request.
struct Phase {
    kind: Kind,
    left: u64,
    heap: u64,
    request: (u64, u64),
    /// Frees go span after span, so that spans become empty and not only less full.
    ordered: bool,
    /// The span that `Empty` is about.
    span: Option<u64>,
    /// The words that `Scatter` has freed in.
    words: HashSet<(u64, u64)>,
}

struct Generator {
    mix: &'static Mix,
    requests: Requests,
    random: Random,
    driver: Driver,
    list: List,
    out: Vec<Block>,
    /// Requests that were granted: asked again when most others are refused.
    granted: Vec<(u64, (u64, u64))>,
    sixes: usize,
    wanted: usize,
}

fn class_of((size, align): (u64, u64)) -> Option<usize> {
    door::choose_class(size as usize, align as usize)
}

pub fn generate(recipe: &Recipe) -> Result<List, String> {
    let Recipe {
        mix,
        seed,
        heaps,
        spans,
        calls,
    } = *recipe;
    let mut random = Random::new(seed);
    let mut generator = Generator {
        mix,
        requests: Requests::new(mix, calls, &mut random),
        random,
        driver: Driver::fresh(heaps, spans)?,
        list: List {
            heaps,
            spans,
            calls: Vec::with_capacity(calls),
        },
        out: Vec::new(),
        granted: Vec::new(),
        sixes: 0,
        wanted: calls,
    };
    generator.fill_list();
    Ok(generator.list)
}

impl Generator {
    fn fill_list(&mut self) {
        let mut phase = self.first_phase();
        while self.list.calls.len() < self.wanted {
            if phase.left == 0 {
                phase = self.next_phase(&phase);
            }
            phase.left = phase.left.saturating_sub(1);
            self.step(&mut phase);
        }
    }

    fn first_phase(&mut self) -> Phase {
        let (heap, request) = self.request();
        self.phase(Kind::Fill, heap, request)
    }

    /// What was filled is often drained next, and what was freed is regained.
    fn next_phase(&mut self, last: &Phase) -> Phase {
        let follow = match last.kind {
            Kind::Fill if self.mix.weights[KINDS.len() - 1] > 0 => Some(Kind::Scatter),
            Kind::Fill if self.random.chance(50) => Some(Kind::Drain),
            Kind::Fill if self.random.chance(50) => Some(Kind::Remote),
            Kind::Scatter => Some(Kind::Regain),
            Kind::Drain | Kind::Remote | Kind::Empty if self.random.chance(60) => {
                Some(Kind::Regain)
            }
            _ => None,
        };
        if let Some(kind) = follow {
            return self.phase(kind, last.heap, last.request);
        }
        let kind = self.weighted_kind();
        let (heap, request) = self.request();
        self.phase(kind, heap, request)
    }

    fn weighted_kind(&mut self) -> Kind {
        let mut ticket = self.random.below(self.mix.weights.iter().sum());
        for (kind, weight) in KINDS.into_iter().zip(self.mix.weights) {
            if ticket < weight {
                return kind;
            }
            ticket -= weight;
        }
        unreachable!("the ticket is below the sum of the weights")
    }

    fn phase(&mut self, kind: Kind, heap: u64, request: (u64, u64)) -> Phase {
        let (least, most) = match class_of(request) {
            Some(class) => self.lengths(kind, heap, class),
            None => (2, 8),
        };
        Phase {
            kind,
            left: self.random.between(least.min(most), most),
            heap,
            request,
            ordered: self.random.chance(60),
            span: None,
            words: HashSet::new(),
        }
    }

    /// Long enough to fill and spill the magazine a few times, or some spans if the mix says so,
    /// or to free all that the heap has out of the class.
    fn lengths(&mut self, kind: Kind, heap: u64, class: usize) -> (u64, u64) {
        let capacity = door::magazine_layout(class).1 as u64;
        let slots = door::slots_per_span(class) as u64;
        let filled = self.mix.spans_filled * slots;
        match kind {
            Kind::Fill if filled > 0 => (slots, filled),
            Kind::Scatter if self.random.chance(50) => (8, 64),
            Kind::Scatter => (64, 64),
            Kind::Regain if filled > 0 => (4, (slots * 3).min(capacity * 8)),
            Kind::Drain | Kind::Remote if filled > 0 || self.random.chance(50) => {
                let mine = |block: &&Block| block.owner == heap && block.class == class;
                let count = self.out.iter().filter(mine).count() as u64;
                (count, count)
            }
            _ => (4, (capacity * 4).min(self.wanted as u64 / 4 + 8)),
        }
    }

    /// A heap and what it asks for. When 6 has come often, mostly what was granted before.
    fn request(&mut self) -> (u64, (u64, u64)) {
        let crowded = self.sixes * 10 > self.list.calls.len();
        if crowded && !self.granted.is_empty() && self.random.chance(90) {
            return *self.random.choose(&self.granted);
        }
        let heap = self.random.below(self.list.heaps);
        (heap, self.requests.pick(&mut self.random))
    }

    fn step(&mut self, phase: &mut Phase) {
        let allocates = match phase.kind {
            Kind::Fill => 95,
            Kind::Churn => 50,
            Kind::Drain | Kind::Remote => 5,
            Kind::Scatter => 0,
            Kind::Regain => 100,
            Kind::Empty => 2,
        };
        if self.out.is_empty() || self.random.chance(allocates) {
            self.allocate(phase);
        } else {
            self.free(phase);
        }
    }

    fn allocate(&mut self, phase: &mut Phase) {
        let stay = match phase.kind {
            Kind::Regain => 100,
            Kind::Churn => 30,
            _ if self.mix.spans_filled > 0 => 97,
            _ => 80,
        };
        let (heap, (size, align)) = match self.random.chance(stay) {
            true => (phase.heap, phase.request),
            false => self.request(),
        };
        let seed = self.seed();
        let answer = self.make(Call::Allocate {
            heap,
            size,
            align,
            words: Words::Seed(seed),
        });
        match answer.number {
            0 => {
                self.granted.push((heap, (size, align)));
                self.remember(answer);
            }
            6 => {
                // More of the same would be refused too.
                self.sixes += 1;
                phase.left /= 3;
            }
            _ => {}
        }
    }

    fn remember(&mut self, answer: Answer) {
        let (class, owner) = self.driver.class_and_owner(answer.span);
        self.out.push(Block {
            span: answer.span,
            offset: answer.offset,
            class,
            owner,
        });
    }

    /// Mostly any word; sometimes one at an end of its range.
    fn seed(&mut self) -> u64 {
        match self.random.below(20) {
            0 => self.random.below(64),
            1 => u64::MAX - self.random.below(64),
            _ => self.random.word(),
        }
    }

    fn free(&mut self, phase: &mut Phase) {
        let Some(place) = self.block_for(phase) else {
            phase.left = 0;
            return;
        };
        let block = self.out.swap_remove(place);
        let by_another = match phase.kind {
            Kind::Remote => 95,
            Kind::Scatter => 100,
            Kind::Drain => 3,
            _ => 40,
        };
        let heap = match self.random.chance(by_another) {
            true => self.other_heap(block.owner),
            false => block.owner,
        };
        self.make(Call::Free {
            heap,
            span: block.span,
            offset: block.offset,
        });
    }

    /// A heap that is not `owner`, if there are two.
    fn other_heap(&mut self, owner: u64) -> u64 {
        match self.list.heaps {
            1 => owner,
            heaps => (owner + 1 + self.random.below(heaps - 1)) % heaps,
        }
    }

    /// The place in `out` of a block the phase is about.
    fn block_for(&mut self, phase: &mut Phase) -> Option<usize> {
        let blocks = self.out.len();
        let start = self.random.below(blocks as u64) as usize;
        let class = class_of(phase.request);
        let mine = |block: &Block| block.owner == phase.heap && Some(block.class) == class;
        let mut places = (start..blocks).chain(0..start);
        match phase.kind {
            Kind::Empty => {
                let span = *phase.span.get_or_insert(self.out[start].span);
                places.find(|place| self.out[*place].span == span)
            }
            Kind::Scatter => {
                let words = &phase.words;
                let fits = |block: &Block| mine(block) && !words.contains(&block.word());
                let place = places.find(|place| fits(&self.out[*place]))?;
                phase.words.insert(self.out[place].word());
                Some(place)
            }
            Kind::Drain | Kind::Remote if phase.ordered => places
                .filter(|place| mine(&self.out[*place]))
                .min_by_key(|place| self.out[*place].span),
            Kind::Drain | Kind::Remote => places.find(|place| mine(&self.out[*place])),
            Kind::Fill | Kind::Churn | Kind::Regain => Some(start),
        }
    }

    fn make(&mut self, call: Call) -> Answer {
        let answer = self.driver.apply(&call).expect("a call in the domain");
        self.list.calls.push(call);
        answer
    }
}
