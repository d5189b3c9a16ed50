//! Charts of 64 states and a formula whose solutions are known beforehand: every number of rounds that the two can have together, every
//! number of states in which they differ, with each kind byte. What must be reached stands in src/reach/both.rs.

use super::super::shared;
use crate::checker::Checker;
use crate::inputs::halves::{halves, shuffled, Halves, Wanted};
use crate::inputs::sheets;
use crate::Job;

/// Both solutions are what was wanted, in as many rounds.
fn known(c: &mut Checker, of: &Halves, wanted: Wanted, sheet: &[u8]) {
    let told = c.both_solutions(&of.chart.bytes(), sheet);
    let numbers = |word: u64, rounds: usize| [word, word.count_ones() as u64, rounds as u64];
    let expected = [numbers(of.least, wanted.rising), numbers(of.greatest, wanted.falling)];
    c.expect(told.code == 0 && told.halves() == expected, || {
        format!("{:?} {sheet:?}\n  told {:?}, expected {expected:?}", of.chart, told.numbers)
    });
}

/// So many rounds of the least solution, with every number of the greatest, on charts with few steps; with some kind, and where they are
/// 64 together with each.
fn rounds(c: &mut Checker, rising: usize) {
    for falling in 0..=64 - rising {
        let left = 64 - rising - falling;
        // without a round they differ in all states
        let between = if left == 64 { 64 } else { c.random.within(0, left) };
        let wanted = Wanted { rising, falling, between };
        let states = shuffled(&mut c.random, 64);
        let m = c.random.within(3, 6);
        let of = halves(&mut c.random, &states, wanted, m, 100);
        let some = c.random.below(3) as u8;
        for kind in if left == 0 { 0..=2 } else { some..=some } {
            known(c, &of, wanted, &of.sheet(kind));
        }
    }
}

/// So many states that only the greatest has, with each kind.
fn differing(c: &mut Checker, between: usize) {
    for kind in 0..3 {
        let rising = c.random.within(0, 64 - between);
        let falling = if rising == 0 { 64 - between } else { c.random.within(0, 64 - between - rising) };
        let wanted = Wanted { rising, falling, between };
        let states = shuffled(&mut c.random, 64);
        let of = halves(&mut c.random, &states, wanted, 3, 0);
        known(c, &of, wanted, &of.sheet(kind));
    }
}

/// Only this state is in the greatest and not in the least.
fn only(c: &mut Checker, state: usize) {
    for rising in [0, c.random.within(1, 62), 63] {
        let mut states = shuffled(&mut c.random, 64);
        let at = states.iter().position(|&s| s == state).unwrap();
        // those between are the first
        states.swap(0, at);
        let wanted = Wanted { rising, falling: 63 - rising, between: 1 };
        let of = halves(&mut c.random, &states, wanted, 3, 0);
        let kind = c.random.below(3) as u8;
        known(c, &of, wanted, &of.sheet(kind));
    }
}

/// Formulas of 200 nodes on the longest charts: as many rounds as can be, and some with states between.
fn longest(c: &mut Checker, rising: usize) {
    let most = Wanted { rising, falling: 64 - rising, between: 0 };
    let half = Wanted { rising: rising / 2, falling: (64 - rising) / 2, between: c.random.within(1, 32) };
    for wanted in [most, half] {
        let states = shuffled(&mut c.random, 64);
        let of = halves(&mut c.random, &states, wanted, 32, 1024);
        let kind = c.random.below(3) as u8;
        let sheet = sheets::padded(&mut c.random, &of.sheet(kind), 200, 32);
        known(c, &of, wanted, &sheet);
    }
}

pub fn jobs() -> Vec<Job> {
    shared([
        ("both: longest charts", 0..=64, longest),
        ("both: rounds of the two", 0..=64, rounds),
        ("both: states in which they differ", 0..=64, differing),
        ("both: one state in which they differ", 0..=63, only),
    ])
}
