//! The tree in Rust with and without the check of the whole pool, and a program that does nothing.
use crate::program::{coded, Answer, Limits, Program, DONE};
use crate::{sound, tree};
use std::hint::black_box;

/// The tree with no check.
pub struct Tree(pub Vec<u32>);

impl Program for Tree {
    fn check(&self) -> u32 {
        sound::check(&self.0)
    }

    fn insert(&mut self, x: u32, y: u32) -> Answer {
        tree::insert(&mut self.0, x, y)
    }

    fn delete(&mut self, x: u32, y: u32) -> Answer {
        tree::delete(&mut self.0, x, y)
    }

    fn smallest_x(&self, ask: Limits) -> Answer {
        tree::smallest_x(&self.0, ask)
    }

    fn largest_x(&self, ask: Limits) -> Answer {
        tree::largest_x(&self.0, ask)
    }

    fn smallest_y(&self, x0: u32, x1: u32) -> Answer {
        tree::smallest_y(&self.0, x0, x1)
    }

    fn listing(&self, ask: Limits, out: &mut [u32]) -> Answer {
        tree::listing(&self.0, ask, out)
    }
}

/// The tree with the check of the whole pool in every call.
pub struct Checked(pub Vec<u32>);

impl Checked {
    fn once_sound(&self, call: impl FnOnce(&[u32]) -> Answer) -> Answer {
        match sound::check(&self.0) {
            0 => call(&self.0),
            code => coded(code),
        }
    }

    fn once_sound_mut(&mut self, call: impl FnOnce(&mut [u32]) -> Answer) -> Answer {
        match sound::check(&self.0) {
            0 => call(&mut self.0),
            code => coded(code),
        }
    }
}

impl Program for Checked {
    fn check(&self) -> u32 {
        sound::check(&self.0)
    }

    fn insert(&mut self, x: u32, y: u32) -> Answer {
        self.once_sound_mut(|pool| tree::insert(pool, x, y))
    }

    fn delete(&mut self, x: u32, y: u32) -> Answer {
        self.once_sound_mut(|pool| tree::delete(pool, x, y))
    }

    fn smallest_x(&self, ask: Limits) -> Answer {
        self.once_sound(|pool| tree::smallest_x(pool, ask))
    }

    fn largest_x(&self, ask: Limits) -> Answer {
        self.once_sound(|pool| tree::largest_x(pool, ask))
    }

    fn smallest_y(&self, x0: u32, x1: u32) -> Answer {
        self.once_sound(|pool| tree::smallest_y(pool, x0, x1))
    }

    fn listing(&self, ask: Limits, out: &mut [u32]) -> Answer {
        self.once_sound(|pool| tree::listing(pool, ask, out))
    }
}

/// Calls that do nothing: what is counted of them is the loop that makes the calls.
pub struct Idle;

#[inline(never)]
fn nothing(ask: Limits) -> Answer {
    black_box(ask.x0);
    black_box(coded(DONE))
}

impl Program for Idle {
    fn check(&self) -> u32 {
        nothing(Limits { x0: 0, x1: 0, y1: 0 })[0]
    }

    fn insert(&mut self, x: u32, y: u32) -> Answer {
        nothing(Limits { x0: x, x1: x, y1: y })
    }

    fn delete(&mut self, x: u32, y: u32) -> Answer {
        nothing(Limits { x0: x, x1: x, y1: y })
    }

    fn smallest_x(&self, ask: Limits) -> Answer {
        nothing(ask)
    }

    fn largest_x(&self, ask: Limits) -> Answer {
        nothing(ask)
    }

    fn smallest_y(&self, x0: u32, x1: u32) -> Answer {
        nothing(Limits { x0, x1, y1: 0 })
    }

    fn listing(&self, ask: Limits, _out: &mut [u32]) -> Answer {
        nothing(ask)
    }
}
