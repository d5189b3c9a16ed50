//! Good inputs, drawn: many small, some middling, a few large.

use crate::checker::Checker;
use crate::inputs::{charts, sheets};
use crate::Job;

fn drawn(c: &mut Checker, times: usize, states: usize, nodes: usize) {
    for _ in 0..times {
        let chart = charts::any(&mut c.random, states);
        let sheet = sheets::any(&mut c.random, nodes, chart.actions());
        let bytes = chart.bytes();
        c.relations(&bytes);
        c.sheets(&bytes, &sheet);
    }
}

pub fn jobs() -> Vec<Job> {
    let mut jobs = Vec::new();
    for _ in 0..10 {
        jobs.push(Job { name: "valid: large", run: Box::new(|c| drawn(c, 100, 64, 60)) });
        jobs.push(Job { name: "valid: middling", run: Box::new(|c| drawn(c, 1_000, 20, 30)) });
        jobs.push(Job { name: "valid: small", run: Box::new(|c| drawn(c, 5_000, 7, 12)) });
    }
    jobs
}
