//! The same tree over the same cells, in safe Rust, with no check of the pool. The walks keep the sons still to be asked in an
//! array of their own; they visit the slots that the recursive rule visits, in its order.
use crate::program::{coded, Answer, Limits, BACKWARDS, DONE, FULL, MISSING, MORE, NOTHING, OTHER, TAKEN};

/// x, y, left, right. Slot 0 is the header: mark, root, first free slot, number of pairs.
pub type Slot = [u32; 4];

pub const ROOT: usize = 1;
pub const FIRST_FREE: usize = 2;
pub const COUNT: usize = 3;
pub const LEFT: usize = 2;
pub const RIGHT: usize = 3;
pub const FREE: u32 = u32::MAX;

pub fn slots(pool: &[u32]) -> &[Slot] {
    pool.as_chunks().0
}

pub fn slots_mut(pool: &mut [u32]) -> &mut [Slot] {
    pool.as_chunks_mut().0
}

/// A pair as one number: one pair beats another exactly where its number is smaller.
pub fn key(slot: &Slot) -> u64 {
    u64::from(slot[1]) << 32 | u64::from(slot[0])
}

pub fn put_key(slot: &mut Slot, key: u64) {
    slot[0] = key as u32;
    slot[1] = (key >> 32) as u32;
}

/// The link on x's side; the first bit of `bits` is the one of x that this level goes by.
pub fn side(bits: u32) -> usize {
    LEFT + (bits >> 31) as usize
}

pub fn set_up(pool: &mut [u32]) {
    let slots = slots_mut(pool);
    let n = slots.len() - 1;
    slots[0] = [1, 0, 1, 0];
    for (i, slot) in slots.iter_mut().enumerate().skip(1) {
        *slot = [0, 0, FREE, if i < n { i as u32 + 1 } else { 0 }];
    }
}

// ---- changes

fn is_stored(slots: &[Slot], x: u32) -> bool {
    let mut slot = slots[0][ROOT];
    let mut bits = x;
    while slot != 0 {
        let met = &slots[slot as usize];
        if met[0] == x {
            return true;
        }
        slot = met[side(bits)];
        bits <<= 1;
    }
    false
}

#[inline(never)]
pub fn insert(pool: &mut [u32], x: u32, y: u32) -> Answer {
    let slots = slots_mut(pool);
    if is_stored(slots, x) {
        return coded(TAKEN);
    }
    let free = slots[0][FIRST_FREE];
    if free == 0 {
        return coded(FULL);
    }
    let mut down = key(&[x, y, 0, 0]);
    let (mut at, mut link) = (0, ROOT);
    let mut level = 0;
    loop {
        let slot = slots[at][link];
        if slot == 0 {
            break;
        }
        let met = &mut slots[slot as usize];
        let stands = key(met);
        if down < stands {
            put_key(met, down);
            down = stands;
        }
        (at, link) = (slot as usize, side((down as u32) << level));
        level += 1;
    }
    slots[at][link] = free;
    let taken = &mut slots[free as usize];
    let next = taken[RIGHT];
    *taken = [down as u32, (down >> 32) as u32, 0, 0];
    slots[0][FIRST_FREE] = next;
    slots[0][COUNT] += 1;
    coded(DONE)
}

/// The link to the son that beats the other, that son, and its pair.
fn heir(slots: &[Slot], slot: u32) -> Option<(usize, u32, u64)> {
    let [_, _, left, right] = slots[slot as usize];
    match (left, right) {
        (0, 0) => None,
        (0, _) => Some((RIGHT, right, key(&slots[right as usize]))),
        (_, 0) => Some((LEFT, left, key(&slots[left as usize]))),
        _ => {
            let (l, r) = (key(&slots[left as usize]), key(&slots[right as usize]));
            Some(if l < r { (LEFT, left, l) } else { (RIGHT, right, r) })
        }
    }
}

#[inline(never)]
pub fn delete(pool: &mut [u32], x: u32, y: u32) -> Answer {
    let slots = slots_mut(pool);
    let (mut at, mut link) = (0, ROOT);
    let mut bits = x;
    let mut slot = slots[at][link];
    loop {
        if slot == 0 {
            return coded(MISSING);
        }
        let met = &slots[slot as usize];
        if met[0] == x {
            if met[1] != y {
                return coded(OTHER);
            }
            break;
        }
        (at, link) = (slot as usize, side(bits));
        slot = met[link];
        bits <<= 1;
    }
    while let Some((heir, son, pair)) = heir(slots, slot) {
        put_key(&mut slots[slot as usize], pair);
        (at, link) = (slot as usize, heir);
        slot = son;
    }
    slots[at][link] = 0;
    slots[slot as usize] = [0, 0, FREE, slots[0][FIRST_FREE]];
    slots[0][FIRST_FREE] = slot;
    slots[0][COUNT] -= 1;
    coded(DONE)
}

// ---- questions

/// A slot that is to be asked, and the middle of its stripe.
#[derive(Clone, Copy)]
struct Place {
    slot: u32,
    middle: u32,
}

impl Place {
    const NONE: Place = Place { slot: 0, middle: 0 };

    fn root(slots: &[Slot]) -> Option<Place> {
        let slot = slots[0][ROOT];
        (slot != 0).then_some(Place { slot, middle: 1 << 31 })
    }

    /// How far the middles of the sons' stripes are from its own.
    fn half(self) -> u32 {
        (self.middle & self.middle.wrapping_neg()) >> 1
    }

    fn left(self, slot: u32) -> Place {
        Place { slot, middle: self.middle - self.half() }
    }

    fn right(self, slot: u32) -> Place {
        Place { slot, middle: self.middle + self.half() }
    }
}

/// The most places that wait to be asked: one for each level.
const LEVELS: usize = 32;

/// A number that no slot has.
const NO_SLOT: u32 = u32::MAX;

fn found(slots: &[Slot], slot: u32, visits: u32) -> Answer {
    match slots.get(slot as usize) {
        Some(&[x, y, ..]) => [DONE, x, y, 0, visits],
        None => [NOTHING, 0, 0, 0, visits],
    }
}

#[inline(never)]
pub fn smallest_x(pool: &[u32], ask: Limits) -> Answer {
    let slots = slots(pool);
    if ask.x1 < ask.x0 {
        return coded(BACKWARDS);
    }
    let Some(mut at) = Place::root(slots) else {
        return coded(NOTHING);
    };
    let (mut waiting, mut wait) = ([Place::NONE; LEVELS], 0);
    // the smallest x so far, and its slot behind it
    let mut best = u64::MAX;
    let mut visits = 0;
    loop {
        visits += 1;
        let [x, y, left, right] = slots[at.slot as usize];
        if y <= ask.y1 {
            if ask.range(x) {
                best = best.min(u64::from(x) << 32 | u64::from(at.slot));
                // what waits is right of a slot whose left has now given something
                wait = 0;
            }
            let to_right = right != 0 && at.middle <= ask.x1;
            if left != 0 && ask.x0 < at.middle {
                if to_right {
                    waiting[wait] = at.right(right);
                    wait += 1;
                }
                at = at.left(left);
                continue;
            }
            if to_right {
                at = at.right(right);
                continue;
            }
        }
        if wait == 0 {
            return found(slots, best as u32, visits);
        }
        wait -= 1;
        at = waiting[wait];
    }
}

#[inline(never)]
pub fn largest_x(pool: &[u32], ask: Limits) -> Answer {
    let slots = slots(pool);
    if ask.x1 < ask.x0 {
        return coded(BACKWARDS);
    }
    let Some(mut at) = Place::root(slots) else {
        return coded(NOTHING);
    };
    let (mut waiting, mut wait) = ([Place::NONE; LEVELS], 0);
    // the largest x so far as the smallest complement, and its slot behind it
    let mut best = u64::MAX;
    let mut visits = 0;
    loop {
        visits += 1;
        let [x, y, left, right] = slots[at.slot as usize];
        if y <= ask.y1 {
            if ask.range(x) {
                best = best.min(u64::from(!x) << 32 | u64::from(at.slot));
                // what waits is left of a slot whose right has now given something
                wait = 0;
            }
            let to_left = left != 0 && ask.x0 < at.middle;
            if right != 0 && at.middle <= ask.x1 {
                if to_left {
                    waiting[wait] = at.left(left);
                    wait += 1;
                }
                at = at.right(right);
                continue;
            }
            if to_left {
                at = at.left(left);
                continue;
            }
        }
        if wait == 0 {
            return found(slots, best as u32, visits);
        }
        wait -= 1;
        at = waiting[wait];
    }
}

#[inline(never)]
pub fn smallest_y(pool: &[u32], x0: u32, x1: u32) -> Answer {
    let slots = slots(pool);
    if x1 < x0 {
        return coded(BACKWARDS);
    }
    let Some(mut at) = Place::root(slots) else {
        return coded(NOTHING);
    };
    let (mut waiting, mut wait) = ([Place::NONE; LEVELS], 0);
    let (mut best, mut best_key) = (NO_SLOT, u64::MAX);
    let mut visits = 0;
    loop {
        visits += 1;
        let met = &slots[at.slot as usize];
        let [x, _, left, right] = *met;
        if x0 <= x && x <= x1 {
            if key(met) <= best_key {
                (best, best_key) = (at.slot, key(met));
            }
        } else {
            let to_right = right != 0 && at.middle <= x1;
            if left != 0 && x0 < at.middle {
                if to_right {
                    waiting[wait] = at.right(right);
                    wait += 1;
                }
                at = at.left(left);
                continue;
            }
            if to_right {
                at = at.right(right);
                continue;
            }
        }
        if wait == 0 {
            return found(slots, best, visits);
        }
        wait -= 1;
        at = waiting[wait];
    }
}

#[inline(never)]
pub fn listing(pool: &[u32], ask: Limits, out: &mut [u32]) -> Answer {
    let slots = slots(pool);
    if ask.x1 < ask.x0 {
        return coded(BACKWARDS);
    }
    let Some(mut at) = Place::root(slots) else {
        return coded(DONE);
    };
    let out: &mut [[u32; 2]] = out.as_chunks_mut().0;
    let (mut waiting, mut wait) = ([Place::NONE; LEVELS], 0);
    let (mut count, mut visits) = (0, 0);
    loop {
        visits += 1;
        let [x, y, left, right] = slots[at.slot as usize];
        if y <= ask.y1 {
            if ask.range(x) {
                let Some(place) = out.get_mut(count) else {
                    return [MORE, 0, 0, count as u32, visits];
                };
                *place = [x, y];
                count += 1;
            }
            let to_right = right != 0 && at.middle <= ask.x1;
            if left != 0 && ask.x0 < at.middle {
                if to_right {
                    waiting[wait] = at.right(right);
                    wait += 1;
                }
                at = at.left(left);
                continue;
            }
            if to_right {
                at = at.right(right);
                continue;
            }
        }
        if wait == 0 {
            return [DONE, 0, 0, count as u32, visits];
        }
        wait -= 1;
        at = waiting[wait];
    }
}
