//! 21 at every line that can be the first bad or incomplete one, for every kind of bad line, with the line known beforehand. Of 64
//! states 4,032 pairs can be told apart, so that these are 0 to 4,032. Every length that an accepted list can have.

use super::super::shared;
use super::{expect_bad, expect_lines};
use crate::checker::{cut, Checker};
use crate::inputs::charts;
use crate::inputs::lists::own;
use crate::reference::chart::Chart;
use crate::Job;

/// Each state loops by action 0, and has a step to the next by action 1, but for the last. All are unequal, and no move by action
/// 0 tells two apart: it relies on the pair itself.
fn looping_chain(c: &mut Checker, n: usize) -> Chart {
    charts::chart(&mut c.random, n, 2, (0..n).map(|s| (s, 0, s)).chain((1..n).map(|s| (s - 1, 1, s))))
}

/// (0, 1) relies on (1, 2), and no other pair on either.
const A: [u8; 5] = [0, 1, 0, 1, 1];
const B: [u8; 5] = [1, 2, 0, 1, 2];

/// The list with this line at a place; the others follow, or nothing does.
fn with_line(c: &mut Checker, lines: &[[u8; 5]], at: usize, line: [u8; 5]) -> Vec<u8> {
    let mut out = [lines[..at].as_flattened(), &line].concat();
    if c.random.once_in(4) {
        out.extend(lines[at..].as_flattened());
    }
    out
}

/// The line at this number: in each way out of range or no step, twice, relying on what does not stand before. `k` good lines of
/// all 4,032 stand before it.
fn bad_lines(c: &mut Checker, k: usize, chart: &[u8], all: &[[u8; 5]]) {
    let good = all[k.min(4031)];
    let mut bad = vec![("no step", [good[0], good[1], good[2], good[3], good[4].wrapping_add(7) % 64])];
    let (byte, limit) = [(0, 64), (1, 64), (2, 2), (3, 2), (4, 64)][c.random.below(5)];
    let mut out_of_range = good;
    out_of_range[byte] = c.random.within(limit, 255) as u8;
    bad.push(("out of range", out_of_range));
    let state = c.random.below(64) as u8;
    bad.push(("a state with itself", [state, state, c.random.below(2) as u8, 0, state]));
    if k > 0 {
        let earlier @ [p, q, ..] = all[c.random.below(k)];
        bad.push(("a line twice", earlier));
        let (side, target) = [(0, p), (1, q)][c.random.below(2)];
        bad.push(("a pair by another move", [p, q, side, 0, target]));
    }
    for (what, line) in bad {
        let list = with_line(c, all, k, line);
        let told = c.check_reasons(chart, &list);
        expect_bad(c, what, &told, k);
    }
}

/// At this number a line that relies on itself, on the line which is the last of all, and on none that there is.
fn not_earlier(c: &mut Checker, k: usize, chart: &[u8], all: &[[u8; 5]]) {
    let without = |left_out: &[[u8; 5]]| all.iter().filter(|line| !left_out.contains(line)).copied().collect::<Vec<_>>();
    let (but_a, but_both) = (without(&[A]), without(&[A, B]));
    if k <= but_a.len() {
        let list = with_line(c, &but_a, k, [0, 1, 0, 0, 0]);
        let told = c.check_reasons(chart, &list);
        expect_bad(c, "relies on itself", &told, k);
    }
    if k <= but_both.len() {
        let mut list = with_line(c, &but_both, k, A);
        let told = c.check_reasons(chart, &list);
        expect_bad(c, "relies on a pair of no line", &told, k);
        list.extend(B);
        let told = c.check_reasons(chart, &list);
        expect_bad(c, "relies on a later line", &told, k);
    }
}

/// So many good lines, accepted; a part of the next; and every kind of bad line there.
fn at_line(c: &mut Checker, chart: &Chart, all: &[[u8; 5]], k: usize) {
    let chart = chart.bytes();
    // after all pairs comes the first line again
    let more = [all.as_flattened(), &all[0]].concat();
    let told = c.check_reasons(&chart, cut(&more, 5 * k));
    expect_lines(c, "so many lines", &told, k);
    for bytes in 1..5 {
        let told = c.check_reasons(&chart, cut(&more, 5 * k + bytes));
        expect_bad(c, "an incomplete line", &told, k);
    }
    bad_lines(c, k, &chart, all);
    not_earlier(c, k, &chart, all);
}

/// Of n states, all of which are unequal: a line too many, and our list twice.
fn too_many(c: &mut Checker, n: usize) {
    let chart = looping_chain(c, n);
    let (all, bytes) = (own(&chart), chart.bytes());
    let most = n * (n - 1);
    for line in [[0, 1, 0, 0, 0], [0, 1, 1, 0, 1], all[most - 1], [n as u8 - 1, n as u8 - 1, 0, 0, n as u8 - 1]] {
        let told = c.check_reasons(&bytes, &[all.as_flattened(), &line].concat());
        expect_bad(c, "a line too many", &told, most);
    }
    let told = c.check_reasons(&bytes, &[all.as_flattened(); 2].concat());
    expect_bad(c, "our list twice", &told, most);
    let told = c.check_reasons(&bytes, &[all.as_flattened(); 20].concat());
    expect_bad(c, "our list twenty times", &told, most);
}

pub fn jobs() -> Vec<Job> {
    let mut jobs = shared([("reasons: a line too many", 2..=64, too_many as fn(&mut Checker, usize))]);
    for share in 0..16 {
        jobs.push(Job {
            name: "reasons: every line",
            run: Box::new(move |c| {
                let chart = looping_chain(c, 64);
                let all = own(&chart);
                (0..=4032).filter(|k| k % 16 == share).for_each(|k| at_line(c, &chart, &all, k));
            }),
        });
    }
    jobs
}
