//! Good pairs, drawn: many small, some middling, a few large; and layers that take every number of rounds on the longest charts.

use super::super::shared;
use super::answered;
use crate::checker::Checker;
use crate::inputs::{charts, pairs};
use crate::reference::chart::Chart;
use crate::Job;

fn drawn(c: &mut Checker, times: usize, states: usize) {
    for _ in 0..times {
        let [first, second] = pairs::any(&mut c.random, states);
        c.pair(&first.bytes(), &second.bytes());
    }
}

/// 32 states of layers, beside themselves in another order, with a step changed or not: together 1,024 transitions.
fn layers(c: &mut Checker, k: usize) {
    for closed in [false, true] {
        let first = charts::layers(&mut c.random, 32, k, closed, 15);
        let same = pairs::shuffled(&mut c.random, &first);
        let told = answered(c, &[first.clone(), same.clone()]);
        let fine = told.numbers[..2] == [3, k as u64] && told.buffer[1..3] == [0, 0];
        c.expect(fine, || format!("layers in another order: {:?}, {:?}", told.numbers, &told.buffer[..3]));
        let changed = pairs::changed(&mut c.random, &same);
        answered(c, &[first, changed]);
    }
}

/// A chart beside itself, of every size that is not refused.
fn itself(c: &mut Checker, n: usize) {
    for _ in 0..10 {
        let m = c.random.within(0, 32);
        let most = [2 * n, 512][c.random.below(2)];
        let t = c.random.within(0, (n * m * n).min(most));
        let chart = charts::drawn(&mut c.random, n, m, t);
        let told = answered(c, &[chart.clone(), chart.clone()]);
        c.expect(told.buffer[..3] == [0, 0, 0] && told.numbers[0] == 3, || format!("beside itself: {:?}", told.buffer));
        let more = c.random.below(33 - chart.actions());
        let other: Chart = pairs::with_more_codes(&mut c.random, &chart, more);
        let told = answered(c, &[chart, other]);
        c.expect(told.buffer[..3] == [0, 0, 0], || format!("beside itself with more codes: {:?}", told.buffer));
    }
}

pub fn jobs() -> Vec<Job> {
    let mut jobs =
        shared([("comparison: layers", 0..=31, layers as fn(&mut Checker, usize)), ("comparison: itself", 1..=32, itself)]);
    for _ in 0..10 {
        jobs.push(Job { name: "comparison: large", run: Box::new(|c| drawn(c, 200, 64)) });
        jobs.push(Job { name: "comparison: middling", run: Box::new(|c| drawn(c, 1_500, 24)) });
        jobs.push(Job { name: "comparison: small", run: Box::new(|c| drawn(c, 6_000, 8)) });
    }
    jobs
}
