//! Every program gives the same answers, and leaves the same cells.
use crate::day::{Day, Random, ROOM, SEED};
use crate::library::Library;
use crate::list::List;
use crate::others::{Checked, Tree};
use crate::program::{Answer, Limits, Program};
use crate::tree;

struct All {
    library: Library,
    tree: Tree,
    checked: Checked,
    list: List,
}

impl All {
    fn empty(n: usize) -> All {
        let mut pool = vec![0; 4 * (n + 1)];
        tree::set_up(&mut pool);
        All { library: Library(pool.clone()), tree: Tree(pool.clone()), checked: Checked(pool), list: List::with_room(n) }
    }

    fn same_cells(&self) {
        assert!(self.library.0 == self.tree.0 && self.tree.0 == self.checked.0, "the cells differ");
        assert!(self.library.check() == 0 && self.checked.check() == 0, "the pool is not sound");
    }

    fn change(&mut self, call: impl Fn(&mut dyn Program) -> Answer) {
        let answers = [call(&mut self.library), call(&mut self.tree), call(&mut self.checked), call(&mut self.list)];
        same(&answers);
        self.same_cells();
    }

    fn ask(&self, call: impl Fn(&dyn Program) -> Answer) {
        same(&[call(&self.library), call(&self.tree), call(&self.checked), call(&self.list)]);
    }

    /// The trees list in the same order, the plain list in its own.
    fn list(&self, ask: Limits, room: usize) {
        let mut out = [(); 4].map(|()| vec![0; 2 * room]);
        let programs: [&dyn Program; 4] = [&self.library, &self.tree, &self.checked, &self.list];
        let mut answers = [[0; 5]; 4];
        for i in 0..4 {
            answers[i] = programs[i].listing(ask, &mut out[i]);
        }
        same(&answers);
        assert!(out[0] == out[1] && out[1] == out[2], "what is listed differs");
        if answers[0][0] == 0 {
            let sorted = |out: &[u32]| {
                let mut pairs = out.as_chunks::<2>().0.to_vec();
                pairs.sort_unstable();
                pairs
            };
            assert!(sorted(&out[2]) == sorted(&out[3]), "the plain list has other pairs");
        }
    }
}

/// The trees answer alike; the plain list does but for the visits, of which it has none.
fn same(answers: &[Answer; 4]) {
    assert!(answers[0] == answers[1] && answers[1] == answers[2], "the trees' answers differ: {answers:?}");
    assert!(answers[2][..4] == answers[3][..4], "the plain list's answer differs: {answers:?}");
}

/// A pool with one cell or two changed is sound for the one check exactly where it is for the other.
fn damage(random: &mut Random, pool: &[u32], times: usize) {
    for time in 0..times {
        let mut cells = pool.to_vec();
        for _ in 0..=time % 2 {
            let cell = random.below(cells.len() as u32) as usize;
            let other = random.below(cells.len() as u32 / 4) as usize * 4 + cell % 4;
            cells[cell] = match random.below(5) {
                0 => random.next() as u32,
                1 => random.below(cells.len() as u32 / 4 + 1),
                2 => cells[other],
                3 => cells[cell] ^ 1 << random.below(32),
                _ => 0,
            };
        }
        let (by_library, by_rust) = (Library(cells.clone()), Tree(cells));
        assert!(by_library.check() == by_rust.check(), "the checks differ on a damaged pool");
    }
}

/// The calls that are counted, and refusals between them.
fn counted(day: &Day, random: &mut Random) {
    let mut all = All::empty(day.n);
    day.fill(&mut all.library);
    day.fill(&mut all.tree);
    day.fill(&mut all.checked);
    day.fill(&mut all.list);
    all.same_cells();
    let full = all.tree.0.clone();

    for &ask in day.first_to_end.iter().chain(&day.last_to_end).chain(&day.covers) {
        all.ask(|program| program.smallest_x(ask));
        all.ask(|program| program.largest_x(ask));
    }
    for &ask in day.earliest_start.iter().chain(&day.last_to_end) {
        all.ask(|program| program.smallest_y(ask.x0, ask.x1));
    }
    day.covers.iter().for_each(|&ask| all.list(ask, ROOM));
    all.list(Limits { x0: 0, x1: u32::MAX, y1: u32::MAX }, day.n);

    for p in &day.changes {
        all.change(|program| program.insert(p.x, p.y));
        all.change(|program| program.delete(p.x, p.y.wrapping_add(1)));
        all.change(|program| program.delete(p.x, p.y));
        all.change(|program| program.delete(p.x, p.y));
        damage(random, &all.tree.0, 4);
        all.change(|program| program.insert(p.x, p.y));
        all.change(|program| program.insert(p.x ^ 1, p.y));
    }
    assert!(all.tree.0 == full, "the changes are not taken back");
    damage(random, &full, 256);
}

/// Random calls over few x and fewer y, so that many are equal and lie on middles and at the limits.
fn crowded(n: usize, random: &mut Random) {
    let mut all = All::empty(n);
    let any_x = |random: &mut Random| (random.below(16) << 28).wrapping_sub(random.below(3)).wrapping_add(random.below(2));
    for _ in 0..2000 {
        let (x, y) = (any_x(random), random.below(4).wrapping_sub(1));
        match random.below(5) {
            0 => all.change(|program| program.delete(x, y)),
            1..3 => all.change(|program| program.insert(x, y)),
            _ => {
                let ask = Limits { x0: x, x1: any_x(random), y1: y };
                all.ask(|program| program.smallest_x(ask));
                all.ask(|program| program.largest_x(ask));
                all.ask(|program| program.smallest_y(ask.x0, ask.x1));
                all.list(ask, random.below(8) as usize);
                damage(random, &all.tree.0, 8);
            }
        }
    }
}

pub fn verify(day: &Day) {
    let random = &mut Random::new(SEED ^ day.n as u64);
    counted(day, random);
    crowded(day.n.min(40), random);
}
