//! What must be reached by equal rows and equal pairs: every number of states and of classes, every two states as the only equal ones, all
//! states equal and none, and the count from the least to the most.

use super::Row;
use crate::archive::Question::{EqualPairs, EqualRows};
use crate::outcome::Outcome;

pub const ROWS: &[Row] = &[
    ("states of equal rows", |o| o.answers(EqualRows).then(|| o.left.numbers[0]), 1..=64),
    ("classes of 64 states", |o| classes(o, o.states() == 64), 1..=64),
    ("classes of 63 states", |o| classes(o, o.states() == 63), 1..=63),
    ("classes of the longest charts", |o| classes(o, o.of_longest()), 1..=64),
    ("states, all equal", |o| classes(o, o.classes() == 1).map(|_| o.states() as u64), 1..=64),
    ("states, none equal", |o| classes(o, o.classes() == o.states()).map(|_| o.states() as u64), 1..=64),
    ("the only equal pair of 64 states", |o| classes(o, o.states() == 64).and_then(|_| only_pair(o)), 0..=64 * 63 / 2 - 1),
    ("states, as many equal pairs as they are", |o| pairs(o).filter(|&count| count == states(o)).map(|_| states(o)), 1..=64),
    ("states, all pairs equal", |o| pairs(o).filter(|&count| count == states(o).pow(2)).map(|_| states(o)), 1..=64),
    ("equal pairs of 64 states in hundreds", |o| pairs(o).filter(|_| o.states() == 64).map(|count| count / 100), 0..=40),
];

fn states(o: &Outcome) -> u64 {
    o.states() as u64
}

fn classes(o: &Outcome, wanted: bool) -> Option<u64> {
    (o.answers(EqualRows) && wanted).then(|| o.classes() as u64)
}

/// A number of its own for each two states.
fn only_pair(o: &Outcome) -> Option<u64> {
    o.only_pair().map(|(p, q)| (q * (q - 1) / 2 + p) as u64)
}

fn pairs(o: &Outcome) -> Option<u64> {
    o.answers(EqualPairs).then(|| o.left.numbers[0])
}
