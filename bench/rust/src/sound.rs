//! The check of a whole pool, clause by clause. A slot is tested before anything below it is looked at; its x is looked for
//! below it, on its own way down, once what is below is fine.
use crate::tree::{key, Slot, COUNT, FIRST_FREE, FREE, LEFT, RIGHT, ROOT};

/// The stripe from `lower` up to `lower + last`, both included; at level 32 `last` is 0.
#[derive(Clone, Copy)]
struct Stripe {
    lower: u32,
    last: u32,
}

impl Stripe {
    fn holds(self, x: u32) -> bool {
        x.wrapping_sub(self.lower) <= self.last
    }

    /// The bit of x that says on which side of the middle it lies.
    fn bit(self) -> u32 {
        (self.last >> 1) + 1
    }

    fn left(self) -> Stripe {
        Stripe { lower: self.lower, last: self.last >> 1 }
    }

    fn right(self) -> Stripe {
        Stripe { lower: self.lower + self.bit(), last: self.last >> 1 }
    }
}

fn met_below(slots: &[Slot], x: u32, mut slot: u32, mut bit: u32) -> bool {
    while slot != 0 {
        let met = &slots[slot as usize];
        if met[0] == x {
            return true;
        }
        slot = met[if x & bit == 0 { LEFT } else { RIGHT }];
        bit >>= 1;
    }
    false
}

/// Whether all is fine from a slot down whose own number and pair have been tested; its slots are added to `size`.
fn from_slot(slots: &[Slot], met: &Slot, at: Stripe, size: &mut u32) -> bool {
    *size += 1;
    let [x, _, left, right] = *met;
    if at.last == 0 {
        return left | right == 0;
    }
    let bit = at.bit();
    from_link(slots, left, key(met), at.left(), size)
        && from_link(slots, right, key(met), at.right(), size)
        && !met_below(slots, x, if x & bit == 0 { left } else { right }, bit >> 1)
}

fn from_link(slots: &[Slot], slot: u32, father: u64, at: Stripe, size: &mut u32) -> bool {
    if slot == 0 {
        return true;
    }
    let Some(met) = slots.get(slot as usize) else {
        return false;
    };
    if !at.holds(met[0]) || key(met) <= father {
        return false;
    }
    if met[LEFT] | met[RIGHT] == 0 {
        *size += 1;
        return true;
    }
    from_slot(slots, met, at, size)
}

fn chain_is_fine(slots: &[Slot], mut slot: u32, free: usize) -> bool {
    for _ in 0..free {
        let Some(&[0, 0, FREE, next]) = slots.get(slot as usize) else {
            return false;
        };
        slot = next;
    }
    slot == 0
}

fn is_sound(slots: &[Slot]) -> bool {
    let header = &slots[0];
    let Some(root) = slots.get(header[ROOT] as usize) else {
        return false;
    };
    let mut size = 0;
    header[0] == 1
        && (header[ROOT] == 0 || from_slot(slots, root, Stripe { lower: 0, last: u32::MAX }, &mut size))
        && size == header[COUNT]
        && chain_is_fine(slots, header[FIRST_FREE], slots.len() - 1 - size as usize)
}

/// The code of a pool: 0 sound, 1 wrong length, 2 not sound.
#[inline(never)]
pub fn check(pool: &[u32]) -> u32 {
    let (slots, rest) = pool.as_chunks();
    if !rest.is_empty() || slots.len() < 2 || slots.len() > 4096 {
        return 1;
    }
    if is_sound(slots) {
        0
    } else {
        2
    }
}
