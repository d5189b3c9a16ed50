//! Damaged pairs: a fault in the first, in the second or in both, of any kind.

use super::super::boards::{E, L};
use crate::checker::{cut, Checker};
use crate::inputs::{damage, pairs};
use crate::Job;

/// One to three small changes of a chart, or two triples that have changed places.
fn hurt(c: &mut Checker, chart: &[u8]) -> Vec<u8> {
    let counts = damage::chart_counts(chart);
    let mut out = if c.random.once_in(3) { damage::triples(&mut c.random, chart) } else { chart.to_vec() };
    for _ in 0..c.random.within(1, 3) {
        out = damage::any(&mut c.random, &out, &counts);
    }
    out
}

fn drawn(c: &mut Checker, times: usize, states: usize) {
    for _ in 0..times {
        let [first, second] = pairs::any(&mut c.random, states).map(|chart| chart.bytes());
        let (bad_first, bad_second) = (hurt(c, &first), hurt(c, &second));
        c.pair(&bad_first, &second);
        c.pair(&first, &bad_second);
        c.pair(&bad_first, &bad_second);
    }
}

/// Both cut at every two lengths: the first that lacks a byte is told of.
fn both_cut(c: &mut Checker) {
    for i in 0..=E.len() {
        for j in 0..=L.len() {
            let told = c.pair(cut(&E, i), cut(&L, j));
            if i < E.len() {
                c.expect_refused("both cut", &told, (0, 1, i as u64, 0));
            } else if j < L.len() {
                c.expect_refused("the second cut", &told, (3, 1, j as u64, 0));
            }
        }
    }
}

pub fn jobs() -> Vec<Job> {
    let mut jobs = vec![Job { name: "comparison: both cut", run: Box::new(both_cut) }];
    for _ in 0..10 {
        jobs.push(Job { name: "comparison: damaged", run: Box::new(|c| drawn(c, 2_000, 9)) });
        jobs.push(Job { name: "comparison: damaged, large", run: Box::new(|c| drawn(c, 100, 64)) });
    }
    jobs
}
