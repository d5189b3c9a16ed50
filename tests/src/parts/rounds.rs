//! Every number of rounds: marks and simulation for every number of states; both of them and properties on the longest charts, the
//! formulas of 200 nodes. What must be reached stands in src/reach.rs. The rounds of both solutions are in both/.

use super::boards::NAMES;
use super::shared;
use crate::checker::Checker;
use crate::inputs::charts;
use crate::inputs::sheets::{self, Leaves};
use crate::Job;

/// Marks and simulation both take k rounds.
fn settles(c: &mut Checker, chart: &[u8], k: usize) {
    let n = chart[0] as usize;
    let buffer = n * n + c.random.below(2) * c.too_long();
    for told in [c.marks(chart, buffer), c.simulation(chart, buffer)] {
        c.expect(told.code == 0 && told.numbers[..2] == [n as u64, k as u64], || {
            format!("{} layers of {n} states: code {}, numbers {:?}", k + 1, told.code, &told.numbers[..2])
        });
    }
}

fn every_number(c: &mut Checker, n: usize) {
    for k in 0..n {
        let closed = c.random.once_in(2);
        let chart = charts::layers(&mut c.random, n, k, closed, 0).bytes();
        settles(c, &chart, k);
    }
}

/// 64 states as two rings, the first of a: up to 1,023 rounds of simulation.
fn rings(c: &mut Checker, a: usize) {
    let chart = charts::two_rings(&mut c.random, a, 64 - a).bytes();
    let buffer = 4096 + c.too_long();
    let told = c.simulation(&chart, buffer);
    c.expect_answered("two rings", &told);
}

/// A longest chart of layers. By the least solution a state satisfies where it comes down to layer 0, a layer more in each
/// round; by the greatest where it does not. A closed top layer never comes down, so that 64 rounds need an open one.
fn longest_layers(c: &mut Checker, rounds: usize) {
    let (k, closed) = if rounds == 64 { (63, false) } else { (rounds, true) };
    let chart = charts::longest_layers(&mut c.random, k, closed).bytes();
    settles(c, &chart, k);
    for kind in 0..3 {
        let any = [0, 255][c.random.below(2)];
        // or (diamond 31 true), diamond X; and (box 31 false), box X
        let sheet = match kind {
            2 => [1, kind, 5, 3, 6, 31, 2, 6, any, 0],
            _ => [1, kind, 5, 4, 5, 31, 1, 5, any, 0],
        };
        let sheet = sheets::padded(&mut c.random, &sheet, 200, 32);
        let told = c.property(&chart, &sheet);
        c.expect(told.code == 0 && told.numbers[2] == rounds as u64, || {
            format!("200 nodes, kind {kind}, on {} layers: code {}, numbers {:?}", k + 1, told.code, told.numbers)
        });
    }
}

/// Longest charts, drawn, with formulas of 200 nodes and with short forms that have so many.
fn longest(c: &mut Checker, _: usize) {
    let chart = charts::longest(&mut c.random).bytes();
    for sheet in [sheets::longest(&mut c.random, 32), sheets::drawn(&mut c.random, 200, 32, Leaves::WithVariable)] {
        let told = [c.property(&chart, &sheet), c.both_solutions(&chart, &sheet)];
        told.iter().for_each(|told| c.expect_answered("200 nodes", told));
    }
    for (name, most) in NAMES {
        let nodes = c.random.within(most - 10, most);
        for f in [sheets::drawn(&mut c.random, nodes, 32, Leaves::WithoutVariable), sheets::nested(&mut c.random, most, 32)] {
            let buffer = 400 + c.too_long();
            let told = c.short_form(&chart, &f, name, buffer);
            c.expect_answered("a short form of so many nodes", &told);
        }
    }
}

pub fn jobs() -> Vec<Job> {
    shared([
        ("rounds: longest charts of layers", 0..=64, longest_layers),
        ("rounds: longest charts", 1..=80, longest),
        ("rounds: two rings", 1..=63, rings),
        ("rounds: every number", 1..=64, every_number),
    ])
}
