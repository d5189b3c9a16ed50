//! What must be reached by both solutions of a sheet: every number of rounds that each can have, and the two together; every number of
//! states of each, and of states in which they differ, whatever the kind byte says.

use super::Row;
use crate::archive::Question::BothSolutions;
use crate::outcome::Outcome;

pub const ROWS: &[Row] = &[
    ("rounds of the least, 200 nodes, the longest charts", |o| largest(o).then(|| o.halves()[0][2]), 0..=64),
    ("rounds of the greatest, 200 nodes, longest charts", |o| largest(o).then(|| o.halves()[1][2]), 0..=64),
    ("kind and rounds of the least, 64 states", |o| of_64(o).then(|| with_kind(o, 0))?, 0..=3 * 65 - 1),
    ("kind and rounds of the greatest, 64 states", |o| of_64(o).then(|| with_kind(o, 1))?, 0..=3 * 65 - 1),
    ("rounds of the two, 64 states", |o| of_64(o).then(|| together(o)), 0..=64 * 67 / 2),
    ("states of the least, 64 states", |o| of_64(o).then(|| o.halves()[0][1]), 0..=64),
    ("states of the greatest, 64 states", |o| of_64(o).then(|| o.halves()[1][1]), 0..=64),
    ("states in which they differ, unsaid", |o| differing(o, 0), 0..=64),
    ("states in which they differ, least", |o| differing(o, 1), 0..=64),
    ("states in which they differ, greatest", |o| differing(o, 2), 0..=64),
    ("the only state in which they differ, of 64", |o| of_64(o).then(|| only_one(o))?, 0..=63),
];

fn of_64(o: &Outcome) -> bool {
    o.answers(BothSolutions) && o.states() == 64
}

fn largest(o: &Outcome) -> bool {
    o.answers(BothSolutions) && o.nodes() == 200 && o.of_longest()
}

/// A number of its own for each kind byte and number of rounds of a half.
fn with_kind(o: &Outcome, half: usize) -> Option<u64> {
    Some(65 * o.kind()? as u64 + o.halves()[half][2])
}

/// A number of its own for each two numbers of rounds. They are at most 64 together: each round adds a state to the one or takes one
/// from the other, and the one lies inside the other.
fn together(o: &Outcome) -> u64 {
    let [[.., least], [.., greatest]] = o.halves();
    let sum = least + greatest;
    sum * (sum + 1) / 2 + least
}

/// With this kind byte.
fn differing(o: &Outcome, kind: u8) -> Option<u64> {
    (of_64(o) && o.kind() == Some(kind)).then(|| o.differing().count_ones() as u64)
}

fn only_one(o: &Outcome) -> Option<u64> {
    (o.differing().count_ones() == 1).then(|| o.differing().trailing_zeros() as u64)
}
