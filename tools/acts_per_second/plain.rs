//! The same books and acts as in main.rt.in, as plain Rust keeps them: maps in maps, without listeners, lives and proofs. It shows what
//! the memory of a full book costs by itself.

use std::collections::{BTreeMap, VecDeque};
use std::mem;
use std::time::Instant;

const MAPS: u64 = 1022;
const KEYS: u64 = 1024;
/// How many acts are made up before they are made and measured.
const BLOCK: u64 = 512;
const MOST: usize = 1024;

#[derive(Clone, Copy)]
enum Kind {
    Put,
    Add,
    Offer,
    Poll,
}

enum Op {
    Put { key: String, text: String },
    Add { delta: i64 },
    Offer { text: String },
    Poll,
}

struct Act {
    name: String,
    op: Op,
}

/// What an act replies. It is made and not read.
#[allow(dead_code)]
enum Reply {
    Done,
    Nothing,
    Full,
    WrongKind,
    Number(i64),
    Found(String),
}

enum Slot {
    Map(BTreeMap<String, String>),
    Long(i64),
    Queue(VecDeque<String>),
}

struct Random {
    state: u64,
}

impl Random {
    fn below(&mut self, limit: u64) -> u64 {
        self.state = self
            .state
            .wrapping_mul(6_364_136_223_846_793_005)
            .wrapping_add(1_442_695_040_888_963_407);
        (self.state >> 33) % limit
    }
}

fn slot_of(op: &Op) -> Slot {
    match op {
        Op::Put { .. } => Slot::Map(BTreeMap::new()),
        Op::Add { .. } => Slot::Long(0),
        Op::Offer { .. } | Op::Poll => Slot::Queue(VecDeque::new()),
    }
}

fn slot_act(slot: &mut Slot, op: &Op) -> Reply {
    match (op, slot) {
        (Op::Put { key, text }, Slot::Map(map)) => match map.get_mut(key) {
            Some(old) => Reply::Found(mem::replace(old, text.clone())),
            None => {
                if map.len() >= MOST {
                    return Reply::Full;
                }
                map.insert(key.clone(), text.clone());
                Reply::Nothing
            }
        },
        (Op::Add { delta }, Slot::Long(long)) => match long.checked_add(*delta) {
            Some(sum) => {
                *long = sum;
                Reply::Number(sum)
            }
            None => Reply::Full,
        },
        (Op::Offer { text }, Slot::Queue(queue)) => {
            if queue.len() >= MOST {
                return Reply::Full;
            }
            queue.push_back(text.clone());
            Reply::Done
        }
        (Op::Poll, Slot::Queue(queue)) => match queue.pop_front() {
            Some(text) => Reply::Found(text),
            None => Reply::Nothing,
        },
        _ => Reply::WrongKind,
    }
}

struct Run {
    slots: BTreeMap<String, Slot>,
    maps: u64,
    keys: u64,
}

impl Run {
    fn act(&mut self, act: &Act) -> Reply {
        if let Some(slot) = self.slots.get_mut(&act.name) {
            return slot_act(slot, &act.op);
        }
        if self.slots.len() >= MOST {
            return Reply::Full;
        }
        let mut slot = slot_of(&act.op);
        let reply = slot_act(&mut slot, &act.op);
        self.slots.insert(act.name.clone(), slot);
        reply
    }

    fn block(&self, random: &mut Random, kind: Kind) -> Vec<Act> {
        (0..BLOCK)
            .map(|number| match kind {
                Kind::Put => put(random.below(self.maps), random.below(self.keys), number),
                Kind::Add => add(),
                Kind::Offer => offer(number),
                Kind::Poll => poll(),
            })
            .collect()
    }

    /// Makes a block of acts, and answers how many nanoseconds they took.
    fn time(&mut self, random: &mut Random, kind: Kind) -> u128 {
        let acts = self.block(random, kind);
        let start = Instant::now();
        for act in &acts {
            std::hint::black_box(self.act(act));
        }
        start.elapsed().as_nanos()
    }

    /// Makes so many blocks of two kinds in turn, and answers how many acts of each were made in a second.
    fn rates(&mut self, kinds: (Kind, Kind), blocks: u64) -> (u128, u128) {
        let mut random = Random { state: 1 };
        let (mut first, mut second) = (0, 0);
        for _ in 0..blocks {
            first += self.time(&mut random, kinds.0);
            second += self.time(&mut random, kinds.1);
        }
        let acts = u128::from(blocks * BLOCK) * 1_000_000_000;
        (acts.checked_div(first).unwrap_or(0), acts.checked_div(second).unwrap_or(0))
    }
}

fn put(map: u64, key: u64, number: u64) -> Act {
    Act {
        name: format!("map-{map}"),
        op: Op::Put {
            key: format!("key-{key}"),
            text: format!("text-{number}"),
        },
    }
}

fn add() -> Act {
    Act {
        name: "long".to_string(),
        op: Op::Add { delta: 1 },
    }
}

fn offer(number: u64) -> Act {
    Act {
        name: "queue".to_string(),
        op: Op::Offer {
            text: format!("text-{number}"),
        },
    }
}

fn poll() -> Act {
    Act {
        name: "queue".to_string(),
        op: Op::Poll,
    }
}

fn book(maps: u64, keys: u64, acts: impl Iterator<Item = Act>) -> Run {
    let mut run = Run {
        slots: BTreeMap::new(),
        maps,
        keys,
    };
    for act in acts {
        run.act(&act);
    }
    run
}

fn with_maps(keys: u64) -> impl Iterator<Item = Act> {
    (0..MAPS).flat_map(move |map| (0..keys).map(move |key| put(map, key, key)))
}

fn others() -> impl Iterator<Item = Act> {
    std::iter::once(add()).chain((0..BLOCK).map(offer))
}

fn rates(mut run: Run, blocks: u64) -> [u128; 4] {
    let (put, add) = run.rates((Kind::Put, Kind::Add), blocks);
    let (offer, poll) = run.rates((Kind::Offer, Kind::Poll), blocks);
    [put, add, offer, poll]
}

fn main() {
    let count: u64 = std::env::args().nth(1).and_then(|word| word.parse().ok()).unwrap_or(1_000_000);
    let blocks = count / BLOCK;
    let one = |act: Act, kinds| book(1, 1, std::iter::once(act)).rates(kinds, blocks);
    let (offers, polls) = one(offer(0), (Kind::Offer, Kind::Poll));
    let small = [
        one(put(0, 0, 0), (Kind::Put, Kind::Put)).0,
        one(add(), (Kind::Add, Kind::Add)).0,
        offers,
        polls,
    ];
    let first_map = (0..KEYS).map(|key| put(0, key, key));
    let large = rates(book(1, KEYS, with_maps(1).chain(first_map).chain(others())), blocks);
    let full = rates(book(MAPS, KEYS, with_maps(KEYS).chain(others())), blocks);
    for (what, at) in ["put", "add", "offer", "poll"].iter().zip(0..) {
        println!(
            "{what}, plain Rust: {} acts per second on the small book, {} on the large one, {} on the full one",
            small[at], large[at], full[at]
        );
    }
}
