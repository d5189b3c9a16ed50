//! What must be reached of lists of reasons: those that we write, and those that are handed in.

use super::{thousands, Row};
use crate::archive::Question::{CheckReasons, Reasons};
use crate::outcome::Outcome;
use crate::spelled::deepest;

pub const ROWS: &[Row] = &[
    ("thousands too long, reasons", |o| thousands(o, Reasons), 0..=5),
    ("states, all pairs unequal", all_unequal, 1..=64),
    ("lines of our own list in hundreds, 64 states", |o| written(o, 64, 0).then(|| own_lines(o) / 100), 0..=40),
    ("deepest formula of our own list, 64 states", |o| written(o, 64, 0).then(|| deepest(o) as u64), 0..=63),
    (
        "deepest of our own list, the longest charts",
        |o| (o.of_longest() && written(o, 64, 0)).then(|| deepest(o) as u64),
        0..=63,
    ),
    ("side of our own list's first line, 64 states", |o| first_line(o, 2), 0..=1),
    ("action of our own list's first line, 64 states", |o| first_line(o, 3), 0..=31),
    ("target of our own list's first line, 64 states", |o| first_line(o, 4), 0..=63),
    ("side of our own list's last line, 64 states", |o| last_line(o, 2), 0..=1),
    ("lines missing room, reasons of 64 states", |o| refused_14(o), 1..=3),
    ("lines of an accepted list, 64 states", |o| accepted(o, 64).then(|| o.left.numbers[0]), 0..=4032),
    ("deepest of an accepted list, in hundreds", |o| accepted(o, 64).then(|| deepest(o) as u64 / 100), 0..=10),
    ("21, incomplete: line", |o| bad_line(o, Kind::Incomplete), 0..=4032),
    ("21, out of range: line", |o| bad_line(o, Kind::OutOfRange), 0..=4032),
    ("21, no step: line", |o| bad_line(o, Kind::NoStep), 0..=4032),
    ("21, the pair earlier: line", |o| bad_line(o, Kind::PairEarlier), 1..=4032),
    ("21, relies on no line before: line", |o| bad_line(o, Kind::NotEarlier), 0..=4032),
    ("21, p out of range: value", |o| bad_value(o, 0), 2..=255),
    ("21, q out of range: value", |o| bad_value(o, 1), 2..=255),
    ("21, side above 1: value", |o| bad_value(o, 2), 2..=255),
    ("21, action out of range: value", |o| bad_value(o, 3), 2..=255),
    ("21, target out of range: value", |o| bad_value(o, 4), 2..=255),
    ("21, bytes of an incomplete line", |o| refused_21(o).then(|| o.left.list.len() as u64 % 5).filter(|&b| b > 0), 1..=4),
];

/// The number of states, where each is unequal to each other.
fn all_unequal(o: &Outcome) -> Option<u64> {
    let states = o.states();
    (o.answers(Reasons) && o.reasons().len() == states * (states - 1)).then_some(states as u64)
}

/// A list that we write, of so many states and with at least so many lines.
fn written(o: &Outcome, states: usize, lines: usize) -> bool {
    o.answers(Reasons) && o.states() == states && o.reasons().len() >= lines
}

fn own_lines(o: &Outcome) -> u64 {
    o.reasons().len() as u64
}

fn first_line(o: &Outcome, byte: usize) -> Option<u64> {
    written(o, 64, 1).then(|| o.reasons()[0][byte] as u64)
}

fn last_line(o: &Outcome, byte: usize) -> Option<u64> {
    written(o, 64, 1).then(|| o.reasons()[o.reasons().len() - 1][byte] as u64)
}

/// The list has no room: 1 in a buffer of none, 2 a byte short of the longest, 3 a line short of it.
fn refused_14(o: &Outcome) -> Option<u64> {
    let short = o.left.question == Reasons && o.refuses(14) && o.states() == 64;
    short.then(|| [0, 20_159, 20_155].iter().position(|&length| length == o.left.buffer.len()))?.map(|i| i as u64 + 1)
}

fn accepted(o: &Outcome, states: usize) -> bool {
    o.answers(CheckReasons) && o.states() == states
}

fn refused_21(o: &Outcome) -> bool {
    o.left.question == CheckReasons && o.refuses(21)
}

/// What is wrong with a bad line, by its bytes and those of the chart.
#[derive(PartialEq)]
enum Kind {
    Incomplete,
    OutOfRange,
    NoStep,
    PairEarlier,
    NotEarlier,
}

/// The number of the bad line, of 64 states, where it is of this kind.
fn bad_line(o: &Outcome, kind: Kind) -> Option<u64> {
    (refused_21(o) && o.states() == 64 && kind_of(o) == kind).then(|| o.place() as u64)
}

fn kind_of(o: &Outcome) -> Kind {
    let (lines, counts) = (o.reasons(), o.counts());
    let Some(&[p, q, side, action, target]) = lines.get(o.place()) else { return Kind::Incomplete };
    let states = p.max(q).max(target) as usize;
    if states >= counts.states || side > 1 || action as usize >= counts.actions {
        return Kind::OutOfRange;
    }
    let step = [if side == 0 { p } else { q }, action, target];
    if !o.left.chart.part()[counts.first_triple()..].as_chunks().0.contains(&step) {
        return Kind::NoStep;
    }
    let earlier = lines[..o.place()].iter().any(|line| line[..2] == [p, q]);
    if earlier {
        Kind::PairEarlier
    } else {
        Kind::NotEarlier
    }
}

/// The value out of range at this byte of a bad line, whose bytes before are 0 or 1, of two states and two actions.
fn bad_value(o: &Outcome, byte: usize) -> Option<u64> {
    let counts = o.counts();
    if !refused_21(o) || (counts.states, counts.actions) != (2, 2) {
        return None;
    }
    let line = o.reasons().get(o.place())?;
    (line[..byte].iter().all(|&b| b < 2) && line[byte] > 1).then(|| line[byte] as u64)
}
