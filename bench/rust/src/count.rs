//! The loops that are counted.
use crate::day::{Day, CALLS, ROOM};
use crate::program::{coded, Answer, Program};
use std::hint::black_box;

#[derive(Clone, Copy, PartialEq)]
pub enum Kind {
    Check,
    SmallestX,
    LargestX,
    SmallestY,
    Listing,
    /// Each call is two: a pair is deleted, and inserted again.
    Changes,
    /// The check alone of the pools that `Changes` meets, two for each of its calls.
    ChangesCheck,
}

impl Kind {
    pub fn named(name: &str) -> Option<Kind> {
        Some(match name {
            "check" => Kind::Check,
            "smallest_x" => Kind::SmallestX,
            "largest_x" => Kind::LargestX,
            "smallest_y" => Kind::SmallestY,
            "listing" => Kind::Listing,
            "changes" => Kind::Changes,
            "changes_check" => Kind::ChangesCheck,
            _ => return None,
        })
    }
}

/// What the calls answered: a sum over code, x, y and count, and the visits.
#[derive(Default)]
pub struct Tally {
    pub answers: u64,
    pub visits: u64,
}

impl Tally {
    fn take(&mut self, [code, x, y, count, visits]: Answer) {
        let pair = u64::from(x) << 32 | u64::from(y);
        let rest = u64::from(code) << 32 | u64::from(count);
        self.answers = (self.answers ^ pair).wrapping_mul(0x9E37_79B9_7F4A_7C15).rotate_left(29) ^ rest;
        self.visits += u64::from(visits);
    }
}

/// One round of calls, `CALLS` of them. `between` has the pools that stand between a change's two calls. `black_box` hides which
/// program is asked, so that no call is left out as a repetition.
#[inline(never)]
pub fn round<P: Program>(program: &mut P, between: &[P], day: &Day, kind: Kind, tally: &mut Tally) {
    match kind {
        Kind::Check => (0..CALLS).for_each(|_| tally.take(coded(black_box(&*program).check()))),
        Kind::SmallestX => day.first_to_end.iter().for_each(|&ask| tally.take(black_box(&*program).smallest_x(ask))),
        Kind::LargestX => day.last_to_end.iter().for_each(|&ask| tally.take(black_box(&*program).largest_x(ask))),
        Kind::SmallestY => day.earliest_start.iter().for_each(|&ask| tally.take(black_box(&*program).smallest_y(ask.x0, ask.x1))),
        Kind::Listing => {
            let mut out = [0; 2 * ROOM];
            day.covers.iter().for_each(|&ask| tally.take(black_box(&*program).listing(ask, &mut out)));
        }
        Kind::Changes => {
            for p in &day.changes {
                tally.take(black_box(&mut *program).delete(p.x, p.y));
                tally.take(black_box(&mut *program).insert(p.x, p.y));
            }
        }
        Kind::ChangesCheck => {
            for other in between {
                tally.take(coded(black_box(&*program).check()));
                tally.take(coded(black_box(other).check()));
            }
        }
    }
}
