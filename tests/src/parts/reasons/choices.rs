//! Several moves that would do, at every depth from 2 to 63: a second target and a second action, on either side, and moves of both
//! sides, with two lines known beforehand.

use super::super::shared;
use super::expect_lines;
use crate::checker::Checker;
use crate::inputs::charts;
use crate::inputs::lists::LONGEST;
use crate::inputs::random::Random;
use crate::reference::chart::Chart;
use crate::Job;

/// What is drawn.
#[derive(Clone, Copy)]
struct Size {
    states: usize,
    actions: usize,
    /// The mark of x and y.
    depth: usize,
    /// The least action that tells them apart.
    first: usize,
    /// x has a move of its own, too; or else only y.
    both: bool,
}

/// Such a chart, and its two lines for x and y.
struct Choice {
    chart: Chart,
    lines: [[u8; 5]; 2],
}

/// Some of the upper states: from 1 to 3, or at least 2.
fn some(r: &mut Random, upper: &[usize], least: usize) -> Vec<usize> {
    let mut upper = upper.to_vec();
    r.shuffle(&mut upper);
    let count = r.within(least, upper.len().min(3));
    upper.truncate(count);
    upper
}

/// A chain of depth - 1 states, and the others above it: each steps by every action to the chain's top, to some of the others or to
/// both. So all of these are alike before that round, and in it those are told apart that differ in which of the two they reach.
/// By the actions below `first` all reach both; from it on x reaches the chain alone, y others and, unless x has a move, the chain.
fn choice(r: &mut Random, size: Size) -> Choice {
    let mut order: Vec<usize> = (0..size.states).collect();
    r.shuffle(&mut order);
    let (chain, upper) = order.split_at(size.depth - 1);
    let (low, x, y) = (chain[chain.len() - 1], upper[0], upper[1]);
    let mut steps = Vec::new();
    let mut least = 64;
    for a in 0..size.actions {
        steps.extend(chain.windows(2).map(|pair| (pair[1], a, pair[0])));
        for &s in upper {
            let (to_low, to_upper) = match () {
                _ if a < size.first => (true, true),
                _ if s == x => (true, false),
                _ if s == y => (!size.both, true),
                _ => [(true, true), (true, false), (false, true)][r.below(3)],
            };
            let targets = some(r, upper, if s == y { 2 } else { 1 });
            if s == y && a == size.first {
                least = targets.iter().copied().fold(64, usize::min);
            }
            steps.extend(to_low.then_some((s, a, low)));
            steps.extend(targets.into_iter().filter(|_| to_upper).map(|t| (s, a, t)));
        }
    }
    let of_x = if size.both { [x, y, 0, size.first, low] } else { [x, y, 1, size.first, least] };
    let lines = [of_x, [y, x, 0, size.first, least]].map(|line| line.map(|byte| byte as u8));
    Choice { chart: charts::chart(r, size.states, size.actions, steps), lines }
}

fn ask(c: &mut Checker, size: Size) {
    let Choice { chart, lines } = choice(&mut c.random, size);
    let bytes = chart.bytes();
    let told = c.reasons(&bytes, LONGEST);
    c.expect_answered("a good chart", &told);
    let list = &told.buffer[..told.numbers[0].min(LONGEST as u64) as usize];
    let ours = list.as_chunks::<5>().0;
    c.expect(lines.iter().all(|line| ours.contains(line)), || format!("{chart:?}\n  lacks one of {lines:?}"));
    let told = c.check_reasons(&bytes, list);
    expect_lines(c, "our own list", &told, ours.len());
}

/// Of 64 states, and of 40.
fn depths(c: &mut Checker, depth: usize) {
    for states in [64, 40].into_iter().filter(|&n| n > depth) {
        for both in [false, true] {
            for first in 0..2 {
                // at least two actions tell x from y, and with so few there is room for all steps
                let actions = c.random.within(first + 2, 4);
                ask(c, Size { states, actions, depth, first, both });
            }
        }
    }
}

/// Each action as the least that tells two states apart, deeper than 20.
fn actions(c: &mut Checker, first: usize) {
    let depth = 21 + first % 4;
    for both in [false, true] {
        ask(c, Size { states: depth + 1, actions: 32, depth, first, both });
    }
}

pub fn jobs() -> Vec<Job> {
    shared([
        ("reasons: choices", 2..=63, depths as fn(&mut Checker, usize)),
        ("reasons: actions of deep lines", 0..=31, actions),
    ])
}
