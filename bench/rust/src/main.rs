//! The same calls by four programs, to be counted.
//!
//!     bench verify N                          holds the programs to each other
//!     bench count PROGRAM KIND N ROUNDS       makes the calls of one kind, so many rounds of them, and says what was answered
//!
//! Standard Rust's own start does not run under every emulator, so `main` is the C library's.
#![no_main]

mod count;
mod day;
mod library;
mod list;
mod others;
mod program;
mod sound;
mod tree;
mod verify;

use count::{round, Kind, Tally};
use day::{Day, CALLS};
use library::Library;
use list::List;
use others::{Checked, Idle, Tree};
use program::Program;

/// The pools between a change's delete and its insert.
fn between(day: &Day) -> impl Iterator<Item = Vec<u32>> + '_ {
    let full = day.pool();
    day.changes.iter().map(move |p| {
        let mut pool = full.clone();
        tree::delete(&mut pool, p.x, p.y);
        pool
    })
}

fn rounds<P: Program>(mut program: P, between: &[P], day: &Day, kind: Kind, rounds: usize) {
    let mut tally = Tally::default();
    for _ in 0..rounds {
        round(&mut program, between, day, kind, &mut tally);
    }
    println!("calls {} answers {:016x} visits {}", CALLS * rounds, tally.answers, tally.visits);
}

fn count(name: &str, kind: Kind, n: usize, times: usize) -> Option<()> {
    let day = &Day::new(n);
    let pools = || between(day).take(if kind == Kind::ChangesCheck { CALLS } else { 0 });
    match name {
        "library" => rounds(Library(day.pool()), &pools().map(Library).collect::<Vec<_>>(), day, kind, times),
        "tree" => rounds(Tree(day.pool()), &pools().map(Tree).collect::<Vec<_>>(), day, kind, times),
        "checked" => rounds(Checked(day.pool()), &pools().map(Checked).collect::<Vec<_>>(), day, kind, times),
        "idle" => rounds(Idle, &pools().map(|_| Idle).collect::<Vec<_>>(), day, kind, times),
        "list" => {
            let mut list = List::with_room(n);
            day.fill(&mut list);
            rounds(list, &[], day, kind, times);
        }
        _ => return None,
    }
    Some(())
}

fn run(words: &[&str]) -> Option<()> {
    match words {
        ["verify", n] => {
            verify::verify(&Day::new(n.parse().ok()?));
            println!("n = {n}: the four programs give the same answers");
            Some(())
        }
        ["count", program, kind, n, times] => count(program, Kind::named(kind)?, n.parse().ok()?, times.parse().ok()?),
        _ => None,
    }
}

#[no_mangle]
extern "C" fn main() -> i32 {
    let words: Vec<String> = std::env::args().skip(1).collect();
    let words: Vec<&str> = words.iter().map(String::as_str).collect();
    if run(&words).is_none() {
        eprintln!("usage: bench verify N | bench count PROGRAM KIND N ROUNDS");
        return 2;
    }
    0
}
