//! What is asked: a full pool of random strips, and the calls over it. All of it follows from the number of slots.
use crate::program::{Limits, Program};
use crate::tree;
use std::collections::BTreeSet;

/// The calls of each kind in one round.
pub const CALLS: usize = 256;

/// The most pairs that a list has to hold.
pub const ROOM: usize = 16;

pub const SEED: u64 = 1985;

/// Slots go from 0 to 65535, and so do the numbers of strips.
const SLOTS: u32 = 65536;
const LAST: u32 = SLOTS - 1;

pub struct Random(u64);

impl Random {
    pub fn new(seed: u64) -> Random {
        Random(seed)
    }

    pub fn next(&mut self) -> u64 {
        self.0 = self.0.wrapping_add(0x9E37_79B9_7F4A_7C15);
        let mut z = self.0;
        z = (z ^ (z >> 30)).wrapping_mul(0xBF58_476D_1CE4_E5B9);
        z = (z ^ (z >> 27)).wrapping_mul(0x94D0_49BB_1331_11EB);
        z ^ (z >> 31)
    }

    pub fn below(&mut self, n: u32) -> u32 {
        (self.next() % u64::from(n)) as u32
    }

    fn slot(&mut self) -> u32 {
        self.below(SLOTS)
    }
}

#[derive(Clone, Copy)]
pub struct Pair {
    pub x: u32,
    pub y: u32,
}

/// The pairs of a full pool of n slots, and the calls that are counted.
pub struct Day {
    pub n: usize,
    pub pairs: Vec<Pair>,
    pub first_to_end: Vec<Limits>,
    pub last_to_end: Vec<Limits>,
    pub earliest_start: Vec<Limits>,
    pub covers: Vec<Limits>,
    pub changes: Vec<Pair>,
}

/// Strips from a random slot to a random slot, with a random number; no two with the same x.
fn strips(random: &mut Random, n: usize) -> Vec<Pair> {
    let mut taken = BTreeSet::new();
    let mut pairs = Vec::with_capacity(n);
    while pairs.len() < n {
        let (a, b) = (random.slot(), random.slot());
        let x = a.max(b) << 16 | random.slot();
        if taken.insert(x) {
            pairs.push(Pair { x, y: a.min(b) });
        }
    }
    pairs
}

fn covering(u: u32) -> Limits {
    Limits { x0: u << 16, x1: u32::MAX, y1: u }
}

/// A slot near one end of the day, where few strips cover it.
fn rarely_covered(random: &mut Random, pairs: &[Pair]) -> Limits {
    let near = SLOTS / 2 / (pairs.len() as u32).div_ceil(ROOM as u32);
    loop {
        let from_end = random.below(near);
        let ask = covering(if random.below(2) == 0 { from_end } else { LAST - from_end });
        if pairs.iter().filter(|p| ask.holds(p.x, p.y)).count() <= ROOM {
            return ask;
        }
    }
}

fn many<T>(mut make: impl FnMut() -> T) -> Vec<T> {
    (0..CALLS).map(|_| make()).collect()
}

impl Day {
    pub fn new(n: usize) -> Day {
        let mut random = Random::new(SEED + n as u64);
        let pairs = strips(&mut random, n);
        let first_to_end = many(|| covering(random.slot()));
        let last_to_end = many(|| {
            let (a, b) = (random.slot(), random.slot());
            Limits { x1: a.max(b) << 16 | LAST, ..covering(a.min(b)) }
        });
        let earliest_start = many(|| {
            let u = random.slot();
            let v = (u + random.below(4096)).min(LAST);
            Limits { x0: u << 16, x1: v << 16 | LAST, y1: u32::MAX }
        });
        let covers = many(|| rarely_covered(&mut random, &pairs));
        let changes = many(|| pairs[random.below(n as u32) as usize]);
        Day { n, pairs, first_to_end, last_to_end, earliest_start, covers, changes }
    }

    /// The cells of the full pool.
    pub fn pool(&self) -> Vec<u32> {
        let mut pool = vec![0; 4 * (self.n + 1)];
        tree::set_up(&mut pool);
        for p in &self.pairs {
            tree::insert(&mut pool, p.x, p.y);
        }
        pool
    }

    pub fn fill(&self, program: &mut impl Program) {
        for p in &self.pairs {
            program.insert(p.x, p.y);
        }
    }
}
