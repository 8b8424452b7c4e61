//! A plain list of pairs in no order: each call goes through it once.
use crate::program::{coded, Answer, Limits, Program, BACKWARDS, DONE, FULL, MISSING, MORE, NOTHING, OTHER, TAKEN};

#[derive(Clone, Copy)]
struct Pair {
    x: u32,
    y: u32,
}

pub struct List {
    pairs: Vec<Pair>,
    room: usize,
}

fn found(pair: Option<&Pair>) -> Answer {
    match pair {
        Some(p) => [DONE, p.x, p.y, 0, 0],
        None => coded(NOTHING),
    }
}

impl List {
    pub fn with_room(room: usize) -> List {
        List { pairs: Vec::with_capacity(room), room }
    }
}

impl Program for List {
    fn check(&self) -> u32 {
        DONE
    }

    #[inline(never)]
    fn insert(&mut self, x: u32, y: u32) -> Answer {
        if self.pairs.iter().any(|p| p.x == x) {
            return coded(TAKEN);
        }
        if self.pairs.len() == self.room {
            return coded(FULL);
        }
        self.pairs.push(Pair { x, y });
        coded(DONE)
    }

    #[inline(never)]
    fn delete(&mut self, x: u32, y: u32) -> Answer {
        let Some(place) = self.pairs.iter().position(|p| p.x == x) else {
            return coded(MISSING);
        };
        if self.pairs[place].y != y {
            return coded(OTHER);
        }
        self.pairs.swap_remove(place);
        coded(DONE)
    }

    #[inline(never)]
    fn smallest_x(&self, ask: Limits) -> Answer {
        if ask.x1 < ask.x0 {
            return coded(BACKWARDS);
        }
        found(self.pairs.iter().filter(|p| ask.holds(p.x, p.y)).min_by_key(|p| p.x))
    }

    #[inline(never)]
    fn largest_x(&self, ask: Limits) -> Answer {
        if ask.x1 < ask.x0 {
            return coded(BACKWARDS);
        }
        found(self.pairs.iter().filter(|p| ask.holds(p.x, p.y)).max_by_key(|p| p.x))
    }

    #[inline(never)]
    fn smallest_y(&self, x0: u32, x1: u32) -> Answer {
        if x1 < x0 {
            return coded(BACKWARDS);
        }
        found(self.pairs.iter().filter(|p| x0 <= p.x && p.x <= x1).min_by_key(|p| (p.y, p.x)))
    }

    #[inline(never)]
    fn listing(&self, ask: Limits, out: &mut [u32]) -> Answer {
        if ask.x1 < ask.x0 {
            return coded(BACKWARDS);
        }
        let out: &mut [[u32; 2]] = out.as_chunks_mut().0;
        let mut count = 0;
        for p in self.pairs.iter().filter(|p| ask.holds(p.x, p.y)) {
            let Some(place) = out.get_mut(count) else {
                return [MORE, 0, 0, count as u32, 0];
            };
            *place = [p.x, p.y];
            count += 1;
        }
        [DONE, 0, 0, count as u32, 0]
    }
}
