//! What must be reached by properties, and by both solutions of a sheet: every word of the table of steps, every size of the table and of
//! what the diamonds remember, and at every place and in every round an operand that grows and one that shrinks.

use super::Row;
use crate::archive::Question::{BothSolutions, Property};
use crate::outcome::Outcome;
use crate::reference::sheet::Solution;
use crate::steps::{changes, own, triples, Change};
use std::collections::BTreeSet;
use std::ops::RangeInclusive;

pub const ROWS: &[Row] = &[
    ("states and actions of a solution", |o| solved(o).then(|| (33 * o.states() + o.actions()) as u64), 33..=64 * 33 + 32),
    ("words of table and memory", |o| solved(o).then(|| words(o)), 9..=2820),
    ("words of table and memory, the most", |o| solved(o).then(|| words(o)), 2916..=2916),
    ("word of the table by a diamond, the longest charts", |o| word_read(o, 5), 0..=33 * 64 - 1),
    ("word of the table by a box, the longest charts", |o| word_read(o, 6), 0..=33 * 64 - 1),
    ("state at rest before the last that steps, of 64", |o| solved(o).then(|| last_at_rest(o))?, 0..=62),
];

/// One solution is answered, or both.
pub fn solved(o: &Outcome) -> bool {
    o.answers(Property) || o.answers(BothSolutions)
}

/// So many words the table and the memory take, two of the memory for each byte of the sheet.
pub fn words(o: &Outcome) -> u64 {
    ((o.actions() + 1) * o.states() + 2 * o.left.sheet.len()) as u64
}

/// The word of the table that a solution is, on a longest chart: row and state. "Diamond a, diamond b true", or for a box "box a, box b
/// false", where b has one step only: then it is the word of a at that step's source, or its opposite.
fn word_read(o: &Outcome, node: u8) -> Option<u64> {
    if !solved(o) || !o.of_longest() {
        return None;
    }
    let &[_, _, 3, first, a, second, b, leaf] = o.left.sheet.part() else { return None };
    // true after diamonds, false after boxes
    if [first, second, leaf] != [node, node, node - 4] {
        return None;
    }
    let mut of_b = triples(o.left.chart.part()).iter().filter(|triple| triple[1] == b);
    let (&[source, ..], None) = (of_b.next()?, of_b.next()) else { return None };
    let row = if a == 255 { 0 } else { a as u64 + 1 };
    Some(64 * row + source as u64)
}

/// Of a chart with 64 states: the last state without steps before one that has some.
fn last_at_rest(o: &Outcome) -> Option<u64> {
    let steps: BTreeSet<u8> = triples(o.left.chart.part()).iter().map(|triple| triple[0]).collect();
    let last = (o.states() == 64).then(|| steps.last())??;
    (0..*last).rev().find(|s| !steps.contains(s)).map(u64::from)
}

/// Of operands that change: by node, and whether they grow, the names of the places and of the applications.
const OF_CHANGES: [(u8, bool, &str, &str); 4] = [
    (5, true, "place of a diamond whose operand grows", "application in which a diamond's operand grows"),
    (5, false, "place of a diamond whose operand shrinks", "application in which a diamond's operand shrinks"),
    (6, true, "place of a box whose operand grows", "application in which a box's operand grows"),
    (6, false, "place of a box whose operand shrinks", "application in which a box's operand shrinks"),
];

/// 200 nodes have their last diamond at 399, and at an even place at 396. An operand that changes does so from the second application
/// on, and 64 rounds are 65 applications.
pub fn of_changes() -> impl Iterator<Item = (&'static str, RangeInclusive<u64>)> {
    OF_CHANGES.iter().flat_map(|&(_, _, places, applications)| [(places, 3..=397), (applications, 1..=64)])
}

/// The solutions that took a round or more.
fn sought(o: &Outcome) -> Vec<Solution> {
    let [[.., least], [.., greatest]] = o.halves();
    match o.left.question {
        Property if least > 0 => vec![own(o.left.sheet.part())],
        BothSolutions => [(Solution::Least, least), (Solution::Greatest, greatest)]
            .into_iter()
            .filter(|(_, rounds)| *rounds > 0)
            .map(|(solution, _)| solution)
            .collect(),
        _ => vec![],
    }
}

/// What the operands of a solution reach. Sheets of less than five nodes are left aside: there are very many of them.
pub fn by(o: &Outcome) -> BTreeSet<(&'static str, u64)> {
    let mut seen = BTreeSet::new();
    if !solved(o) || o.nodes() < 5 {
        return seen;
    }
    for solution in sought(o) {
        for Change { at, node, application, grows } in changes(o.left.chart.part(), o.left.sheet.part(), solution) {
            let (_, _, places, applications) = OF_CHANGES.iter().find(|row| (row.0, row.1) == (node, grows)).unwrap();
            seen.extend([(*places, at as u64), (*applications, application as u64)]);
        }
    }
    seen
}
