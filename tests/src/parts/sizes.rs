//! Good inputs of every size: every number of states with every number of actions, every number of transitions, every number of
//! nodes, and charts that take the most rounds.

use super::boards::NAMES;
use super::shared;
use crate::checker::Checker;
use crate::inputs::sheets::Leaves;
use crate::inputs::{charts, sheets};
use crate::reference::chart::Chart;
use crate::reference::short_form::added;
use crate::Job;

/// All seven questions about a chart and a sheet must be answered, in buffers that are just long enough or longer, and those with a
/// buffer refused in one that is a byte shorter.
fn answered(c: &mut Checker, chart: &Chart, nodes: usize) {
    let (bytes, cells, m) = (chart.bytes(), chart.states().pow(2), chart.actions());
    let sheet = sheets::any(&mut c.random, nodes, m);
    let f = sheets::drawn(&mut c.random, nodes, m, Leaves::WithoutVariable);
    let name = c.random.below(4) as u64;
    let written = f.len() + added(name);
    let more = c.random.below(2) * c.too_long();
    let told = [
        c.marks(&bytes, cells + more),
        c.simulation(&bytes, cells + more),
        c.property(&bytes, &sheet),
        c.short_form(&bytes, &f, name, written + more),
        c.both_solutions(&bytes, &sheet),
        c.equal_rows(&bytes),
        c.equal_pairs(&bytes),
    ];
    told.iter().for_each(|told| c.expect_answered("a good input", told));
    let told = [c.marks(&bytes, cells - 1), c.simulation(&bytes, cells - 1), c.short_form(&bytes, &f, name, written - 1)];
    told.iter().for_each(|told| c.expect_refused("a buffer too short", told, (2, 14, 0, 0)));
}

fn states_and_actions(c: &mut Checker, n: usize) {
    for m in 0..=32 {
        let t = c.random.within(0, (n * m * n).min(2 * n));
        let chart = charts::drawn(&mut c.random, n, m, t);
        answered(c, &chart, 20);
    }
}

fn transitions(c: &mut Checker, t: usize) {
    // with 32 actions six states have room for 1,024
    let n = 6 + t * 7 % 59;
    let chart = charts::drawn(&mut c.random, n, 32, t);
    answered(c, &chart, 12);
}

/// Every number of nodes, with every name: a result of more than 200 is refused.
fn nodes(c: &mut Checker, nodes: usize) {
    for leaves in [Leaves::WithVariable, Leaves::WithoutVariable] {
        let chart = charts::any(&mut c.random, 12);
        let bytes = chart.bytes();
        let sheet = sheets::drawn(&mut c.random, nodes, chart.actions(), leaves);
        let told = c.property(&bytes, &sheet);
        c.expect_answered("a sheet", &told);
        c.sheets(&bytes, &sheet);
        let f = sheets::drawn(&mut c.random, nodes, chart.actions(), Leaves::WithoutVariable);
        for (name, most) in NAMES {
            let more = c.random.below(2) * c.too_long();
            let told = c.short_form(&bytes, &f, name, 402 + more);
            if nodes <= most {
                c.expect_answered("an F", &told);
            } else {
                c.expect_refused("an F that is too long", &told, (1, 10, 2, 0));
            }
        }
    }
}

/// Buffers of every length, from none to more than is needed.
fn buffers(c: &mut Checker) {
    for n in [1, 2, 5, 9] {
        let chart = charts::drawn(&mut c.random, n, 2, n).bytes();
        for length in 0..=n * n + 3 {
            c.marks(&chart, length);
            c.simulation(&chart, length);
        }
        let nodes = 20 * n;
        let sheet = sheets::drawn(&mut c.random, nodes, 2, Leaves::WithoutVariable);
        for name in 0..4 {
            for length in 0..=sheet.len() + 12 {
                c.short_form(&chart, &sheet, name, length);
            }
        }
    }
}

/// Chains, rings and pairs of rings: n - 1 rounds of marks, n of a property, over 1,000 of simulation.
fn rounds(c: &mut Checker, n: usize) {
    let r = &mut c.random;
    let made = [charts::chain(r, n), charts::ring(r, n), charts::two_rings(r, n / 2, n - n / 2)];
    for (i, chart) in made.iter().enumerate() {
        let bytes = chart.bytes();
        c.relations(&bytes);
        // at rest, or some step to X: along a chain it takes every state a round, and from all states none is lost
        let sheet = [1, 1, 5, 4, 6, 255, 2, 5, 255, 0];
        let told = c.property(&bytes, &sheet);
        c.expect(i != 0 || told.numbers[2] == n as u64, || format!("a chain of {n} took {} rounds", told.numbers[2]));
        let (all, count) = (u64::MAX >> (64 - n), n as u64);
        let both = c.both_solutions(&bytes, &sheet).halves();
        c.expect(i != 0 || both == [[all, count, count], [all, count, 0]], || format!("both of a chain of {n}: {both:?}"));
    }
}

fn most_rounds(c: &mut Checker) {
    let chart = charts::ring(&mut c.random, 64).bytes();
    let told = c.marks(&chart, 4096);
    c.expect(told.numbers[1] == 63, || format!("a ring of 64: {} rounds", told.numbers[1]));
    let chart = charts::two_rings(&mut c.random, 31, 33).bytes();
    let told = c.simulation(&chart, 4096);
    c.expect(told.numbers[1] == 31 * 33, || format!("rings of 31 and 33: {} rounds", told.numbers[1]));
}

pub fn jobs() -> Vec<Job> {
    let mut jobs = vec![
        Job { name: "sizes: most rounds", run: Box::new(most_rounds) },
        Job { name: "sizes: buffers", run: Box::new(buffers) },
    ];
    jobs.extend(shared([
        ("sizes: states and actions", 1..=64, states_and_actions),
        ("sizes: transitions", 0..=1024, transitions),
        ("sizes: nodes", 1..=200, nodes),
        ("sizes: rounds", 2..=64, rounds),
    ]));
    jobs
}
