//! Faulty triples by number and byte: document 02, T-02. In small charts every triple and byte that 6 can have, every triple that 7
//! can have, and every byte of a triple absent; every value out of range; several faults at once. What must be met stands in
//! src/reach.rs. All triples of the longest charts are in places.rs, faults written by hand in order.rs.

use super::places::{changed, chart_refused, not_greater, triple_refused};
use crate::checker::{cut, Checker};
use crate::inputs::charts;
use crate::reach::SMALL_TRIPLES;
use crate::Job;

/// A drawn chart of n states, m actions and t triples: each byte of each triple out of range and absent, each triple not greater
/// than the one before.
fn each_triple(c: &mut Checker, n: usize, m: usize, t: usize) {
    let good = charts::drawn(&mut c.random, n, m, t).bytes();
    let first = n + m + 4;
    for triple in 0..t {
        let start = first + 3 * triple;
        for (byte, bound) in [n, m, n].into_iter().enumerate() {
            for value in [bound as u8, bound as u8 + 1, 255] {
                triple_refused(c, "out of range", &changed(&good, start + byte, &[value]), 6, triple, byte);
            }
            chart_refused(c, "absent", cut(&good, start + byte), 1, start + byte);
        }
        if triple > 0 {
            let before = [good[start - 3], good[start - 2], good[start - 1]];
            for not_greater in not_greater(before, m as u8 - 1, n as u8 - 1) {
                triple_refused(c, "not greater", &changed(&good, start, &not_greater), 7, triple, 0);
            }
        }
    }
}

/// Without actions the first triple is refused at its action, whatever stands there, and no target is read.
fn no_action(c: &mut Checker, n: usize) {
    for t in 1..=SMALL_TRIPLES {
        let first = n + 4;
        let chart = [&charts::counted(n, 0, 0)[..first - 2], &[t as u8, 0], &vec![0; 3 * t]].concat();
        for value in [n as u8, n as u8 + 1, 255] {
            triple_refused(c, "source out of range", &changed(&chart, first, &[value]), 6, 0, 0);
        }
        for value in [0, 1, 255] {
            triple_refused(c, "no action", &changed(&chart, first + 1, &[value]), 6, 0, 1);
            triple_refused(c, "no action, no target", &changed(&chart, first + 1, &[value])[..first + 2], 6, 0, 1);
        }
        for length in [first, first + 1] {
            chart_refused(c, "absent", cut(&chart, length), 1, length);
        }
    }
}

fn small(c: &mut Checker, n: usize) {
    no_action(c, n);
    for m in 1..=4 {
        for t in 1..=SMALL_TRIPLES.min(n * m * n) {
            each_triple(c, n, m, t);
        }
    }
}

/// Every value that each byte of a triple must not have, in the smallest charts and in the longest.
fn values(c: &mut Checker) {
    let longest = charts::longest(&mut c.random).bytes();
    let charts = [(vec![1, 9, 0, 1, 0, 0, 0, 0], 1, 0, 0), (charts::counted(1, 1, 1), 1, 1, 0), (longest, 64, 32, 1023)];
    for (chart, n, m, triple) in charts {
        for (byte, bound) in [n, m, n].into_iter().enumerate() {
            // without actions no target is read
            for value in (bound as u8..=255).filter(|_| byte < 2 || m > 0) {
                let at = n + m + 4 + 3 * triple + byte;
                triple_refused(c, "a value out of range", &changed(&chart, at, &[value]), 6, triple, byte);
            }
        }
    }
}

/// The longest chart with a fault in one triple: each byte of it out of range, or a triple like the one before.
fn with_fault(chart: &[u8], triple: usize, fault: usize) -> Vec<u8> {
    let at = 100 + 3 * triple;
    match fault {
        3 => changed(chart, at, &chart[at - 3..at]),
        byte => changed(chart, at + byte, &[[64, 32, 64][byte]]),
    }
}

/// Two faults in the triples of the longest chart, and all bytes from one on: the first is told.
fn first_of_two(c: &mut Checker) {
    let good = charts::longest(&mut c.random).bytes();
    let triples = [1, 2, 255, 256, 257, 511, 512, 1022, 1023];
    let told = |fault: usize| if fault == 3 { (7, 0) } else { (6, fault) };
    for (i, &triple) in triples.iter().enumerate() {
        for fault in 0..4 {
            let (number, byte) = told(fault);
            let one = with_fault(&good, triple, fault);
            for later in &triples[i + 1..] {
                for other in 0..4 {
                    triple_refused(c, "the first of two", &with_fault(&one, *later, other), number, triple, byte);
                }
            }
            if fault < 3 {
                let at = 100 + 3 * triple + fault;
                let rest = vec![255; good.len() - at];
                triple_refused(c, "the first of all", &changed(&good, at, &rest), 6, triple, fault);
            }
        }
    }
}

pub fn jobs() -> Vec<Job> {
    let mut jobs: Vec<Job> =
        (1..=4).map(|n| Job { name: "lines: small charts", run: Box::new(move |c| small(c, n)) }).collect();
    jobs.push(Job { name: "lines: values", run: Box::new(values) });
    jobs.push(Job { name: "lines: the first of two", run: Box::new(first_of_two) });
    jobs
}
