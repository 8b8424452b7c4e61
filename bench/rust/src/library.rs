//! The library, by its C interface.
use crate::program::{Answer, Limits, Program};

extern "C" {
    fn drecerunya_check(pool: *const u32, len: usize) -> u32;
    fn drecerunya_insert(pool: *mut u32, len: usize, x: u32, y: u32, answer: *mut Answer) -> u32;
    fn drecerunya_delete(pool: *mut u32, len: usize, x: u32, y: u32, answer: *mut Answer) -> u32;
    fn drecerunya_smallest_x(pool: *const u32, len: usize, x0: u32, x1: u32, y1: u32, answer: *mut Answer) -> u32;
    fn drecerunya_largest_x(pool: *const u32, len: usize, x0: u32, x1: u32, y1: u32, answer: *mut Answer) -> u32;
    fn drecerunya_smallest_y(pool: *const u32, len: usize, x0: u32, x1: u32, answer: *mut Answer) -> u32;
    fn drecerunya_listing(
        pool: *const u32,
        len: usize,
        x0: u32,
        x1: u32,
        y1: u32,
        out: *mut u32,
        out_len: usize,
        answer: *mut Answer,
    ) -> u32;
}

pub struct Library(pub Vec<u32>);

// SAFETY, of every call below: each pointer goes with the length of the slice that it is from, slices that may be written are
// borrowed uniquely, and the call keeps none of them.
impl Program for Library {
    fn check(&self) -> u32 {
        unsafe { drecerunya_check(self.0.as_ptr(), self.0.len()) }
    }

    fn insert(&mut self, x: u32, y: u32) -> Answer {
        let mut answer = [0; 5];
        unsafe { drecerunya_insert(self.0.as_mut_ptr(), self.0.len(), x, y, &mut answer) };
        answer
    }

    fn delete(&mut self, x: u32, y: u32) -> Answer {
        let mut answer = [0; 5];
        unsafe { drecerunya_delete(self.0.as_mut_ptr(), self.0.len(), x, y, &mut answer) };
        answer
    }

    fn smallest_x(&self, ask: Limits) -> Answer {
        let mut answer = [0; 5];
        unsafe { drecerunya_smallest_x(self.0.as_ptr(), self.0.len(), ask.x0, ask.x1, ask.y1, &mut answer) };
        answer
    }

    fn largest_x(&self, ask: Limits) -> Answer {
        let mut answer = [0; 5];
        unsafe { drecerunya_largest_x(self.0.as_ptr(), self.0.len(), ask.x0, ask.x1, ask.y1, &mut answer) };
        answer
    }

    fn smallest_y(&self, x0: u32, x1: u32) -> Answer {
        let mut answer = [0; 5];
        unsafe { drecerunya_smallest_y(self.0.as_ptr(), self.0.len(), x0, x1, &mut answer) };
        answer
    }

    fn listing(&self, ask: Limits, out: &mut [u32]) -> Answer {
        let mut answer = [0; 5];
        unsafe { drecerunya_listing(self.0.as_ptr(), self.0.len(), ask.x0, ask.x1, ask.y1, out.as_mut_ptr(), out.len(), &mut answer) };
        answer
    }
}
