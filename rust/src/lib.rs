//! A proved lookup for pooled fares, in cells that the caller lends.
//!
//! Pairs `[x, y]` are kept in a *pool*: a slice of `4 (n + 1)` numbers, with room for `n` pairs, `n` from 1 to 4095
//! ([`cells_for`]). A *strip* (a start, an end and a number, each 0 to 65535, start ≤ end) is stored as the pair
//! `x = end × 65536 + number`, `y = start`, and covers slot `u` when `start ≤ u ≤ end`.
//!
//! ```
//! use drecerunya::{cells_for, Answer, Refusal};
//!
//! let mut pool = [0; cells_for(3)];
//! assert_eq!(drecerunya::set_up(&mut pool), Answer::Done);
//! assert_eq!(drecerunya::open(&mut pool, 10, 20, 1), Answer::Done);
//! assert_eq!(drecerunya::open(&mut pool, 5, 20, 2), Answer::Done);
//! assert_eq!(drecerunya::open(&mut pool, 12, 12, 3), Answer::Done);
//!
//! // a tap in slot 13 draws on the strip that covers it and ends first
//! let strip = drecerunya::first_to_end(&pool, 13).found().unwrap();
//! assert_eq!((strip.end(), strip.number(), strip.start()), (20, 1, 10));
//!
//! // all three cover slot 12
//! let mut out = [0; 6];
//! let listed = drecerunya::list_covers(&pool, 12, &mut out);
//! assert!(matches!(listed, Answer::Listed { count: 3, more: false, .. }));
//! let ends: Vec<u32> = drecerunya::pairs(&out, 3).map(|strip| strip.end()).collect();
//! assert_eq!(ends, [20, 20, 12]);
//!
//! // what cannot be done is refused, and changes nothing
//! assert_eq!(drecerunya::open(&mut pool, 7, 9, 4), Answer::Refused(Refusal::FULL));
//! ```
//!
//! Every call accepts any slice and any numbers. All but [`set_up`] check the whole pool first, so a slice that was never set up, or that was
//! damaged, is refused and never followed. A refusal changes no cell and no byte. Nothing here panics or allocates.
//!
//! # Linking
//!
//! The calls are those of `libdrecerunya.a`, which is for x86-64 Linux and needs nothing else. The build looks for it in the folder
//! that the environment variable `DRECERUNYA_LIB` names, and else in `../target/staticlib`, where `embed/archive` writes it.
#![no_std]
#![deny(missing_docs)]
#![deny(unsafe_op_in_unsafe_fn)]

use core::fmt;

mod calls;

/// How many cells a pool has with room for `pairs` pairs: `4 (pairs + 1)`.
#[must_use]
pub const fn cells_for(pairs: usize) -> usize {
    pairs.saturating_add(1).saturating_mul(4)
}

/// How many bytes the stored book of so many pairs has: `5 + 8 pairs`.
#[must_use]
pub const fn book_bytes(pairs: usize) -> usize {
    pairs.saturating_mul(8).saturating_add(5)
}

/// A stored pair. No two stored pairs have the same x.
#[derive(Clone, Copy, Debug, PartialEq, Eq, Hash)]
pub struct Pair {
    /// What the pair is found by; of a strip, `end × 65536 + number`.
    pub x: u32,
    /// What stands beside it; of a strip, its start.
    pub y: u32,
}

impl Pair {
    /// The last slot of the strip that this pair is.
    #[must_use]
    pub const fn end(self) -> u32 {
        self.x / 65536
    }

    /// The number of the strip that this pair is.
    #[must_use]
    pub const fn number(self) -> u32 {
        self.x % 65536
    }

    /// The first slot of the strip that this pair is.
    #[must_use]
    pub const fn start(self) -> u32 {
        self.y
    }
}

/// Why a call was refused: its code, with a named constant for each.
#[derive(Clone, Copy, Debug, PartialEq, Eq, Hash)]
pub struct Refusal(u32);

impl Refusal {
    /// The pool's length is not `4 (n + 1)` with `n` 1 to 4095.
    pub const LENGTH: Refusal = Refusal(1);
    /// The pool is not sound: it was never set up, or its cells were damaged.
    pub const UNSOUND: Refusal = Refusal(2);
    /// The question's limits are the wrong way round: x0 > x1, v < u, or e < u.
    pub const BACKWARDS: Refusal = Refusal(3);
    /// Insert, open: x is stored, with whatever y (of a strip: this end and number).
    pub const TAKEN: Refusal = Refusal(4);
    /// Insert, open: no free slot.
    pub const FULL: Refusal = Refusal(5);
    /// Delete, close: x is not stored.
    pub const MISSING: Refusal = Refusal(6);
    /// Delete, close: x is stored with another y (of a strip: another start).
    pub const OTHER: Refusal = Refusal(7);
    /// A start, end, number or asked slot is over 65535, or start > end.
    pub const NO_STRIP: Refusal = Refusal(9);
    /// Save: too few bytes for the book.
    pub const SHORT: Refusal = Refusal(11);

    /// The code as a number.
    #[must_use]
    pub const fn code(self) -> u32 {
        self.0
    }
}

impl fmt::Display for Refusal {
    fn fmt(&self, f: &mut fmt::Formatter<'_>) -> fmt::Result {
        f.write_str(match *self {
            Refusal::LENGTH => "the pool's length is not 4(n + 1) with n 1 to 4095",
            Refusal::UNSOUND => "the pool is not sound",
            Refusal::BACKWARDS => "the limits are the wrong way round",
            Refusal::TAKEN => "x is stored already",
            Refusal::FULL => "there is no free slot",
            Refusal::MISSING => "x is not stored",
            Refusal::OTHER => "x is stored with another y",
            Refusal::NO_STRIP => "a number is over 65535, or the start is after the end",
            Refusal::SHORT => "there are too few bytes for the book",
            Refusal(code) => return write!(f, "code {code}"),
        })
    }
}

/// What a call ends with.
#[derive(Clone, Copy, Debug, PartialEq, Eq, Hash)]
#[must_use]
pub enum Answer {
    /// A question for one pair found it (code 0).
    Found {
        /// The pair.
        pair: Pair,
        /// The tree slots that the question visited.
        visits: u32,
    },
    /// A question for one pair: nothing matches (code 8).
    Nothing {
        /// The tree slots that the question visited.
        visits: u32,
    },
    /// A list: the first `2 × count` cells of the lent slice hold x and y of each pair listed (codes 0 and 10).
    Listed {
        /// How many pairs were listed.
        count: u32,
        /// Whether there are more matches than the slice had room for.
        more: bool,
        /// The tree slots that the list visited.
        visits: u32,
    },
    /// A set up, check, change or save is done (code 0).
    Done,
    /// The call was refused, and changed nothing.
    Refused(Refusal),
}

impl Answer {
    /// The code of the answer.
    #[must_use]
    pub const fn code(self) -> u32 {
        self.numbers()[0]
    }

    /// The pair that was found, if one was.
    #[must_use]
    pub const fn found(self) -> Option<Pair> {
        match self {
            Answer::Found { pair, .. } => Some(pair),
            _ => None,
        }
    }

    /// Why the call was refused, if it was.
    #[must_use]
    pub const fn refusal(self) -> Option<Refusal> {
        match self {
            Answer::Refused(refusal) => Some(refusal),
            _ => None,
        }
    }

    /// Code, x, y, count and visits: what a case does not carry is 0.
    #[must_use]
    pub const fn numbers(self) -> [u32; 5] {
        match self {
            Answer::Found { pair, visits } => [0, pair.x, pair.y, 0, visits],
            Answer::Nothing { visits } => [8, 0, 0, 0, visits],
            Answer::Listed { count, more, visits } => [if more { 10 } else { 0 }, 0, 0, count, visits],
            Answer::Done => [0; 5],
            Answer::Refused(refusal) => [refusal.0, 0, 0, 0, 0],
        }
    }

    /// The answer of a call that is done or refused.
    const fn of_done(code: u32) -> Answer {
        match code {
            0 => Answer::Done,
            code => Answer::Refused(Refusal(code)),
        }
    }

    /// The answer of a question for one pair.
    const fn of_found([code, x, y, _, visits]: [u32; 5]) -> Answer {
        match code {
            0 => Answer::Found { pair: Pair { x, y }, visits },
            8 => Answer::Nothing { visits },
            code => Answer::Refused(Refusal(code)),
        }
    }

    /// The answer of a list.
    const fn of_listed([code, _, _, count, visits]: [u32; 5]) -> Answer {
        match code {
            0 | 10 => Answer::Listed { count, more: code == 10, visits },
            code => Answer::Refused(Refusal(code)),
        }
    }
}

/// The pairs that a list wrote to `out`, where it answered that it listed `count`.
pub fn pairs(out: &[u32], count: u32) -> impl Iterator<Item = Pair> + '_ {
    let cells = usize::try_from(count).unwrap_or(usize::MAX).saturating_mul(2).min(out.len());
    out.get(..cells).unwrap_or(out).chunks_exact(2).filter_map(|cells| match *cells {
        [x, y] => Some(Pair { x, y }),
        _ => None,
    })
}

/// Lays out a pool with nothing stored, whatever its cells held. Refused: `LENGTH`.
pub fn set_up(pool: &mut [u32]) -> Answer {
    Answer::of_done(calls::set_up(pool))
}

/// Says whether a pool is sound: `Done`, or refused: `LENGTH`, `UNSOUND`.
pub fn check(pool: &[u32]) -> Answer {
    Answer::of_done(calls::check(pool))
}

/// Stores the pair `[x, y]`. Refused: `LENGTH`, `UNSOUND`, `TAKEN`, `FULL`.
pub fn insert(pool: &mut [u32], x: u32, y: u32) -> Answer {
    Answer::of_done(calls::insert(pool, x, y)[0])
}

/// Takes the pair `[x, y]` out. It takes back an insert of the same pair, to the last cell, and an insert takes back a delete.
/// Refused: `LENGTH`, `UNSOUND`, `MISSING`, `OTHER`.
pub fn delete(pool: &mut [u32], x: u32, y: u32) -> Answer {
    Answer::of_done(calls::delete(pool, x, y)[0])
}

/// Of the pairs with x0 ≤ x ≤ x1 and y ≤ y1, the one with the smallest x. Refused: `LENGTH`, `UNSOUND`, `BACKWARDS`.
pub fn smallest_x(pool: &[u32], x0: u32, x1: u32, y1: u32) -> Answer {
    Answer::of_found(calls::smallest_x(pool, x0, x1, y1))
}

/// Of the pairs with x0 ≤ x ≤ x1 and y ≤ y1, the one with the largest x. Refused: `LENGTH`, `UNSOUND`, `BACKWARDS`.
pub fn largest_x(pool: &[u32], x0: u32, x1: u32, y1: u32) -> Answer {
    Answer::of_found(calls::largest_x(pool, x0, x1, y1))
}

/// Of the pairs with x0 ≤ x ≤ x1, the one with the smallest y; on equal y the one with the smaller x. Refused: `LENGTH`,
/// `UNSOUND`, `BACKWARDS`.
pub fn smallest_y(pool: &[u32], x0: u32, x1: u32) -> Answer {
    Answer::of_found(calls::smallest_y(pool, x0, x1))
}

/// The pairs with x0 ≤ x ≤ x1 and y ≤ y1, x and y of each from the start of `out` ([`pairs`] reads them), as many as it has
/// room for: half its length, rounded down. They come in the order of the walk, a slot before those below it and the left side
/// before the right: neither by x nor by y.
/// Refused: `LENGTH`, `UNSOUND`, `BACKWARDS`.
pub fn listing(pool: &[u32], x0: u32, x1: u32, y1: u32, out: &mut [u32]) -> Answer {
    Answer::of_listed(calls::listing(pool, x0, x1, y1, out))
}

/// Opens a strip: its pair is stored. Refused: `LENGTH`, `UNSOUND`, `NO_STRIP`, `TAKEN`, `FULL`.
pub fn open(pool: &mut [u32], start: u32, end: u32, number: u32) -> Answer {
    Answer::of_done(calls::open(pool, start, end, number)[0])
}

/// Closes a strip: its pair is taken out. It takes back the opening of the same strip, to the last cell, and an opening takes
/// back a closing. Refused: `LENGTH`, `UNSOUND`, `NO_STRIP`, `MISSING`, `OTHER`.
pub fn close(pool: &mut [u32], start: u32, end: u32, number: u32) -> Answer {
    Answer::of_done(calls::close(pool, start, end, number)[0])
}

/// Of the strips that cover slot u, the one that ends first; of those that end in the same slot, the lowest number. Refused:
/// `LENGTH`, `UNSOUND`, `NO_STRIP`.
pub fn first_to_end(pool: &[u32], u: u32) -> Answer {
    Answer::of_found(calls::first_to_end(pool, u))
}

/// Of the strips that cover slot u and end no later than e, the one that ends last; of those that end in the same slot, the
/// highest number. Refused: `LENGTH`, `UNSOUND`, `NO_STRIP`, `BACKWARDS`.
pub fn last_to_end(pool: &[u32], u: u32, e: u32) -> Answer {
    Answer::of_found(calls::last_to_end(pool, u, e))
}

/// The strips that cover slot u, as [`listing`] lists. Refused: `LENGTH`, `UNSOUND`, `NO_STRIP`.
pub fn list_covers(pool: &[u32], u: u32, out: &mut [u32]) -> Answer {
    Answer::of_listed(calls::list_covers(pool, u, out))
}

/// The strips that cover some slot of u..=v, as [`listing`] lists. Refused: `LENGTH`, `UNSOUND`, `NO_STRIP`, `BACKWARDS`.
pub fn list_meets(pool: &[u32], u: u32, v: u32, out: &mut [u32]) -> Answer {
    Answer::of_listed(calls::list_meets(pool, u, v, out))
}

/// The strips that cover every slot of u..=v, as [`listing`] lists. Refused: `LENGTH`, `UNSOUND`, `NO_STRIP`, `BACKWARDS`.
pub fn list_contains(pool: &[u32], u: u32, v: u32, out: &mut [u32]) -> Answer {
    Answer::of_listed(calls::list_contains(pool, u, v, out))
}

/// Of the strips that end in u..=v, the one with the earliest start; of those that start in the same slot, the first to end,
/// and then the lowest number. Refused: `LENGTH`, `UNSOUND`, `NO_STRIP`, `BACKWARDS`.
pub fn earliest_start(pool: &[u32], u: u32, v: u32) -> Answer {
    Answer::of_found(calls::earliest_start(pool, u, v))
}

/// Writes the stored book: four bytes with the number of bytes that follow, a version byte 1, then x and y of four bytes each
/// per pair, by ascending x; every number has its highest byte first. [`book_bytes`] says how many bytes that is; those beyond
/// stay as they are. Refused: `LENGTH`, `UNSOUND`, `SHORT`.
pub fn save(pool: &[u32], bytes: &mut [u8]) -> Answer {
    Answer::of_done(calls::save(pool, bytes)[0])
}
