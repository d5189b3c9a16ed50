//! All lists of one line and of two over a few bytes, for small charts; and our own lists of all small charts.

use super::super::boards::L;
use super::super::definitions::each_chart;
use super::super::small::strings;
use crate::checker::Checker;
use crate::Job;

/// 0 and 1 loop by the same action, and 0 by another too: that tells them apart, and by the first the pair relies on itself.
const LOOPS: [u8; 17] = [2, 0, 0, 2, 5, 6, 3, 0, 0, 0, 0, 0, 1, 0, 1, 0, 1];

/// Every list of so many bytes of 0, 1 and 2, which for the loops is a state, a side and an action too many.
fn lists(c: &mut Checker, chart: &[u8], length: usize) {
    strings(&[0, 1, 2], length, |list| c.check_reasons(chart, list));
}

/// The values of each byte of one line that are out of range, for two states and two actions, whatever the others are.
fn values(c: &mut Checker) {
    let told = c.check_reasons(&LOOPS, &[0, 1, 0, 1, 0]);
    c.expect_answered("two states and two actions", &told);
    for at in 0..5 {
        for value in 2..=255 {
            for others in (0..32u8).filter(|others| others >> at & 1 == 0) {
                let mut line = [0, 1, 2, 3, 4].map(|bit| others >> bit & 1);
                line[at] = value;
                let told = c.check_reasons(&LOOPS, &line);
                c.expect_refused("out of range", &told, (1, 21, 0, 0));
            }
        }
    }
}

/// Our own list of every chart of so many states and actions, in a buffer that is long enough, just so, or any.
fn all_charts(c: &mut Checker, n: usize, m: usize, share: usize, shares: usize) {
    each_chart(n, m, share, shares, |chart| {
        c.why(&chart.bytes(), &[0, 1, 0, 0, 0]);
    });
}

pub fn jobs() -> Vec<Job> {
    let mut jobs = vec![Job { name: "reasons: values", run: Box::new(values) }];
    for length in 0..=9 {
        jobs.push(Job { name: "reasons: all small lists for L", run: Box::new(move |c| lists(c, &L, length)) });
        jobs.push(Job { name: "reasons: all small lists for loops", run: Box::new(move |c| lists(c, &LOOPS, length)) });
    }
    for share in 0..8 {
        jobs.push(Job { name: "reasons: all charts of four", run: Box::new(move |c| all_charts(c, 4, 1, share, 8)) });
    }
    for (n, m) in [(1, 2), (2, 1), (2, 2), (3, 1)] {
        jobs.push(Job { name: "reasons: all small charts", run: Box::new(move |c| all_charts(c, n, m, 0, 1)) });
    }
    jobs
}
