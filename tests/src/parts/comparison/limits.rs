//! Every division of 64 states, of 32 codes and of 1,024 transitions between two charts, and one too many.

use super::super::shared;
use super::answered;
use crate::checker::Checker;
use crate::inputs::{charts, pairs};
use crate::reference::chart::Chart;
use crate::Job;

fn refused(c: &mut Checker, what: &str, [first, second]: &[Chart; 2], number: u64) {
    let told = c.pair(&first.bytes(), &second.bytes());
    c.expect_refused(what, &told, (2, number, 0, 0));
}

/// The first has n states, and the second every number that leaves 64 together; and one more.
fn states(c: &mut Checker, n: usize) {
    for other in 1..=64 - n {
        let m = [c.random.within(0, 4), c.random.within(0, 4)];
        let t = [c.random.within(0, (n * m[0] * n).min(2 * n)), c.random.within(0, (other * m[1] * other).min(2 * other))];
        let both = pairs::drawn(&mut c.random, [n, other], m, t);
        answered(c, &both);
    }
    for other in 65 - n..=64 {
        let both = pairs::drawn(&mut c.random, [n, other], [1, 1], [n, other]);
        refused(c, "states together", &both, 18);
    }
}

/// The first has m codes, and the second every number; 32 together and 33, where that can be, any, and none in common.
fn codes(c: &mut Checker, m: usize) {
    for other in 0..=32 {
        let least = m.max(other);
        for together in [32, 33, c.random.within(least, m + other), m + other] {
            if together < least || together > m + other {
                continue;
            }
            let n = [c.random.within(1, 5), c.random.within(1, 5)];
            let [first, second] = [(n[0], m), (n[1], other)].map(|(n, m)| charts::drawn(&mut c.random, n, m, m.min(n)));
            let [codes1, codes2] = pairs::codes(&mut c.random, [m, other], m + other - together);
            let both = [Chart { codes: codes1, ..first }, Chart { codes: codes2, ..second }];
            if together > 32 {
                refused(c, "codes together", &both, 19);
            } else {
                answered(c, &both);
            }
        }
    }
}

/// The first has t transitions, and the second so many that there are 1,024; and one more.
fn transitions(c: &mut Checker, t: usize) {
    // with 32 actions six states have room for 1,024
    let n = 6 + t * 7 % 53;
    let sizes = [n, 64 - n];
    let both = pairs::drawn(&mut c.random, sizes, [32, 32], [t, 1024 - t]);
    let told = c.pair(&both[0].bytes(), &both[1].bytes());
    c.expect(told.refusal().is_none_or(|refusal| refusal == (2, 14, 0, 0)), || format!("{:?}", told.refusal()));
    let told = c.compare(&both[0].bytes(), &both[1].bytes(), 67);
    c.expect_answered("1,024 transitions together", &told);
    if t > 0 {
        let both = pairs::drawn(&mut c.random, sizes, [32, 32], [t, 1025 - t]);
        refused(c, "1,025 transitions together", &both, 20);
    }
}

pub fn jobs() -> Vec<Job> {
    shared([
        ("comparison: transitions", 0..=1024, transitions),
        ("comparison: states", 1..=64, states),
        ("comparison: codes", 0..=32, codes),
    ])
}
