//! Both solutions beside their definitions, on charts so small that all sets can be tried; among them all charts of one to three states
//! and one action, with all formulas of few nodes.

use super::super::definitions::{by_all_sets, each_chart};
use crate::checker::Checker;
use crate::inputs::{charts, sheets};
use crate::reference::chart::Chart;
use crate::reference::sheet;
use crate::Job;

fn by_definition(c: &mut Checker, chart: &Chart, bytes: &[u8]) {
    let n = chart.states() as u64;
    let formula = sheet::read(bytes, chart.actions()).expect("a sheet of ours").formula;
    let told = c.both_solutions(&chart.bytes(), bytes);
    let solutions = by_all_sets(chart, &formula);
    let fine =
        told.halves().iter().zip(solutions).all(|([word, count, rounds], solution)| {
            (*word, *count) == (solution, solution.count_ones() as u64) && *rounds <= n
        });
    c.expect(told.code == 0 && fine, || format!("{chart:?} {bytes:?}\n  told {:?}, solutions {solutions:?}", told.numbers));
}

fn drawn(c: &mut Checker) {
    for _ in 0..2_500 {
        let chart = charts::any(&mut c.random, 6);
        let sheet = sheets::any(&mut c.random, 12, chart.actions());
        by_definition(c, &chart, &sheet);
    }
}

/// All formulas of so many nodes, over these action bytes.
fn formulas(nodes: usize, actions: &[u8]) -> Vec<Vec<u8>> {
    if nodes == 1 {
        return vec![vec![0], vec![1], vec![2]];
    }
    let mut out = Vec::new();
    for f in formulas(nodes - 1, actions) {
        out.extend(
            [5, 6]
                .into_iter()
                .flat_map(|node| actions.iter().map(move |&a| (node, a)))
                .map(|(node, a)| [&[node, a], f.as_slice()].concat()),
        );
    }
    for left in 1..nodes - 1 {
        for f in formulas(left, actions) {
            for g in formulas(nodes - 1 - left, actions) {
                out.extend([3, 4].map(|node| [&[node], f.as_slice(), &g].concat()));
            }
        }
    }
    out
}

/// Every chart of n states and one action, with every formula of up to so many nodes and some kind.
fn all_small(c: &mut Checker, n: usize, nodes: usize, share: usize, shares: usize) {
    let all: Vec<(u8, Vec<u8>)> =
        (1..=nodes).flat_map(|nodes| formulas(nodes, &[0, 255]).into_iter().map(move |f| (nodes as u8, f))).collect();
    each_chart(n, 1, share, shares, |chart| {
        for (nodes, formula) in &all {
            let kind = c.random.below(3) as u8;
            by_definition(c, chart, &[&[1, kind, *nodes], formula.as_slice()].concat());
        }
    });
}

pub fn jobs() -> Vec<Job> {
    let mut jobs = Vec::new();
    for share in 0..8 {
        jobs.push(Job { name: "both: all sets, charts of three", run: Box::new(move |c| all_small(c, 3, 3, share, 8)) });
        jobs.push(Job { name: "both: all sets, drawn", run: Box::new(drawn) });
    }
    for (n, nodes) in [(1, 4), (2, 4)] {
        jobs.push(Job { name: "both: all sets, small charts", run: Box::new(move |c| all_small(c, n, nodes, 0, 1)) });
    }
    jobs
}
