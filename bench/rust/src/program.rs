//! What every program can be asked. Each call is a call: none is inlined into the loop that counts it.

/// Code, x, y, count, visits.
pub type Answer = [u32; 5];

pub const DONE: u32 = 0;
pub const BACKWARDS: u32 = 3;
pub const TAKEN: u32 = 4;
pub const FULL: u32 = 5;
pub const MISSING: u32 = 6;
pub const OTHER: u32 = 7;
pub const NOTHING: u32 = 8;
pub const MORE: u32 = 10;

pub const fn coded(code: u32) -> Answer {
    [code, 0, 0, 0, 0]
}

/// The limits of a question, inclusive.
#[derive(Clone, Copy, Debug)]
pub struct Limits {
    pub x0: u32,
    pub x1: u32,
    pub y1: u32,
}

impl Limits {
    pub fn range(self, x: u32) -> bool {
        self.x0 <= x && x <= self.x1
    }

    pub fn holds(self, x: u32, y: u32) -> bool {
        self.range(x) && y <= self.y1
    }
}

pub trait Program {
    fn check(&self) -> u32;
    fn insert(&mut self, x: u32, y: u32) -> Answer;
    fn delete(&mut self, x: u32, y: u32) -> Answer;
    fn smallest_x(&self, ask: Limits) -> Answer;
    fn largest_x(&self, ask: Limits) -> Answer;
    fn smallest_y(&self, x0: u32, x1: u32) -> Answer;
    fn listing(&self, ask: Limits, out: &mut [u32]) -> Answer;
}
