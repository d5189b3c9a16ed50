//! What a table of the steps, and a memory of what each diamond last gave, could get wrong: every word of the table by itself, every
//! size of the two together, states at rest between others, and operands that grow or shrink at every place of a sheet. What must
//! be reached stands in src/reach/steps.rs.

use super::shared;
use crate::checker::Checker;
use crate::inputs::charts::{self, Turning};
use crate::inputs::sheets;
use crate::reference::chart::Chart;
use crate::reference::sheet::Solution;
use crate::steps::{own, solved};
use crate::Job;
use std::collections::BTreeSet;

/// Property and both solutions are answered, and a table and a memory as src/steps.rs has them give the same: so a fault of theirs is the
/// slip alone.
fn answered(c: &mut Checker, chart: &Chart, sheet: &[u8]) {
    let bytes = chart.bytes();
    let (property, both) = (c.property(&bytes, sheet), c.both_solutions(&bytes, sheet));
    [&property, &both].into_iter().for_each(|told| c.expect_answered("a solution", told));
    let [least, greatest] = [Solution::Least, Solution::Greatest].map(|solution| solved(&bytes, sheet, solution, None));
    let asked_for = if own(sheet) == Solution::Least { least } else { greatest };
    c.expect(property.halves()[0] == asked_for && both.halves() == [least, greatest], || {
        format!("{chart:?} {sheet:?}\n  told {:?}, {:?}, by a table {least:?}, {greatest:?}", property.numbers, both.numbers)
    });
}

/// n states, one of which alone has a step by the action `mark`: "diamond a, diamond mark true" is the table's word of a and this state,
/// and "box a, box mark false" its opposite. For each state in turn, and every action where n is 64.
fn each_word(c: &mut Checker, n: usize, m: usize, mark: usize) {
    let t = (n * (m - 1) * n).min(1023);
    let mut steps = BTreeSet::new();
    while steps.len() < t {
        let a = (mark + c.random.within(1, m - 1)) % m;
        steps.insert((c.random.below(n), a, c.random.below(n)));
    }
    let mut actions: Vec<u8> = vec![255, 0, m as u8 - 1, c.random.below(m) as u8];
    if n == 64 {
        actions = (0..m as u8).chain([255]).collect();
    }
    for u in 0..n {
        let chart = charts::chart(&mut c.random, n, m, steps.iter().copied().chain([(u, mark, u)]));
        for &a in &actions {
            for node in [5, 6] {
                let kind = c.random.below(3) as u8;
                answered(c, &chart, &[1, kind, 3, node, a, node, mark as u8, node - 4]);
            }
        }
    }
}

fn table(c: &mut Checker, n: usize) {
    if n == 64 {
        each_word(c, n, 32, 0);
        each_word(c, n, 32, 31);
    } else {
        let m = c.random.within(2, 32);
        let mark = [0, m - 1][c.random.below(2)];
        each_word(c, n, m, mark);
    }
}

/// A table and a memory of so many words together, two of the memory for each byte of the sheet.
fn words(c: &mut Checker, count: usize) {
    let lengths = |n: usize, m: usize| count.checked_sub((m + 1) * n).filter(|rest| rest % 4 == 0 && (8..=804).contains(rest));
    let sizes: Vec<_> =
        (1..=64).flat_map(|n| (0..=32).map(move |m| (n, m))).filter(|&(n, m)| lengths(n, m).is_some()).collect();
    for _ in 0..if sizes.is_empty() { 0 } else { 2 } {
        let (n, m) = sizes[c.random.below(sizes.len())];
        let most = (n * m * n).min(1024);
        let few = c.random.within(0, most.min(4 * n));
        let t = if c.random.once_in(8) { most } else { few };
        let chart = charts::drawn(&mut c.random, n, m, t);
        let sheet = sheets::of_length(&mut c.random, (count - (m + 1) * n) / 2, m);
        answered(c, &chart, &sheet);
    }
}

/// 64 states, of which this one is the last at rest before others: all others step, or those above it and state 0 alone.
fn rest(c: &mut Checker, s: usize) {
    for alone in [false, true] {
        let mut steps = Vec::new();
        for source in (0..64).filter(|&source| source > s || source != s && (!alone || source == 0)) {
            for _ in 0..c.random.within(1, 4) {
                steps.push((source, c.random.below(3), c.random.below(64)));
            }
        }
        let chart = charts::chart(&mut c.random, 64, 3, steps);
        for sheet in [vec![1, 0, 2, 5, 255, 1], vec![1, 1, 2, 6, 255, 2], sheets::recursive(&mut c.random, 3)] {
            answered(c, &chart, &sheet);
        }
    }
}

/// X within diamonds and boxes alone, all turns but one, which takes some states away or, for the least solution, adds them: in each
/// round every operand changes. They stand at odd places; where `even`, at even ones, in an operator whose other operand changes
/// nothing. Diamonds and boxes alternate, with either first.
fn turned(c: &mut Checker, of: &Turning, nodes: usize, kind: u8, even: bool, first: usize) -> Vec<u8> {
    let count = nodes - if even { 3 } else { 1 };
    // in the outer half, so that what is inside has either node
    let part = c.random.below(count.div_ceil(2));
    let mut formula = Vec::new();
    for i in 0..count {
        if i == part {
            formula.extend([if kind == 2 { 5 } else { 6 }, of.part]);
        } else {
            formula.extend([[5, 6][(i + first) % 2], of.turns[c.random.below(of.turns.len())]]);
        }
    }
    formula.push(0);
    if even {
        let [operator, neutral] = [[3, 1], [4, 2]][c.random.below(2)];
        formula = [&[operator], formula.as_slice(), &[neutral]].concat();
    }
    [&[1, kind, nodes as u8], formula.as_slice()].concat()
}

/// Such sheets of so many nodes; some on a second chart right after, for which nothing that the first call remembered may serve.
fn memory(c: &mut Checker, nodes: usize) {
    for even in [false, true].into_iter().filter(|even| !even || nodes > 3) {
        for first in [0, 1] {
            for kind in [c.random.below(2) as u8, 2] {
                // one alone takes the most rounds, and the most time
                let few = if c.random.once_in(8) { 1 } else { c.random.within(2, 24) };
                let one = charts::turning(&mut c.random, few);
                let sheet = turned(c, &one, nodes, kind, even, first);
                answered(c, &one.chart, &sheet);
                let other =
                    if nodes % 8 == 0 { charts::turning(&mut c.random, few).chart } else { charts::any(&mut c.random, 9) };
                if other.actions() == 32 {
                    answered(c, &other, &sheet);
                }
            }
        }
    }
}

/// The largest of all: 402 bytes of sheet on a longest chart.
fn most(c: &mut Checker) {
    for _ in 0..30 {
        let chart = charts::longest(&mut c.random);
        let sheet = sheets::of_length(&mut c.random, 402, 32);
        answered(c, &chart, &sheet);
    }
}

pub fn jobs() -> Vec<Job> {
    let mut jobs = shared([
        ("steps: the memory, few nodes", 2..=40, memory),
        ("steps: the memory", 11..=50, |c, quarter| memory(c, 4 * quarter)),
        ("steps: words of table and memory", 9..=2820, words),
        ("steps: words of the table", 1..=64, table),
        ("steps: states at rest", 0..=62, rest),
    ]);
    jobs.push(Job { name: "steps: the most words", run: Box::new(most) });
    jobs
}
