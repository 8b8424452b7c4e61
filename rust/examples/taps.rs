//! A day of taps: three strips, who draws on which, one closed and the day after.
use drecerunya::{cells_for, Answer};

/// What a tap in slot u draws on.
fn tap(pool: &[u32], u: u32) {
    match drecerunya::first_to_end(pool, u) {
        Answer::Found { pair, visits } => {
            println!("slot {u}: strip {} ({} to {}), {visits} visits", pair.number(), pair.start(), pair.end());
        }
        Answer::Nothing { .. } => println!("slot {u}: no strip covers it"),
        answer => println!("slot {u}: refused, {:?}", answer.refusal()),
    }
}

fn main() {
    let mut pool = [0; cells_for(15)];
    let opened = [
        drecerunya::set_up(&mut pool),
        drecerunya::open(&mut pool, 10, 20, 1),
        drecerunya::open(&mut pool, 5, 20, 2),
        drecerunya::open(&mut pool, 12, 12, 3),
    ];
    assert_eq!(opened, [Answer::Done; 4]);
    for u in [4, 12, 13, 21] {
        tap(&pool, u);
    }
    assert_eq!(drecerunya::close(&mut pool, 10, 20, 1), Answer::Done);
    tap(&pool, 13);
}
