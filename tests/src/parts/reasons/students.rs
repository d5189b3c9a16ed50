//! Lists that students hand in: any moves in any order that is good, ours with lines left out or said in another order, and such
//! with a fault in them. And good charts, drawn, with our list of each.

use super::super::shared;
use super::{expect_bad, expect_lines};
use crate::checker::Checker;
use crate::inputs::charts;
use crate::inputs::lists::{self, own, students};
use crate::reference::chart::Chart;
use crate::Job;

/// A student's list, which is good; every beginning of it is, and what follows a line left out may not be.
fn drawn(c: &mut Checker, times: usize, states: usize) {
    for _ in 0..times {
        let chart = charts::any(&mut c.random, states);
        let bytes = chart.bytes();
        let lines = students(&mut c.random, &chart);
        let told = c.check_reasons(&bytes, lines.as_flattened());
        expect_lines(c, "a student's list", &told, lines.len());
        let beginning = &lines[..c.random.below(lines.len() + 1)];
        c.why(&bytes, beginning.as_flattened());
        for list in [&lines, &own(&chart)] {
            let mut damaged = lists::damaged(&mut c.random, &chart, list);
            c.check_reasons(&bytes, &damaged);
            if c.random.once_in(3) {
                damaged = lists::damaged(&mut c.random, &chart, damaged.as_chunks().0);
                c.check_reasons(&bytes, &damaged);
            }
        }
        left_out(c, &chart, &lines);
    }
}

/// Some lines left out: good where none that is left relies on one of them, and else the first that does is told.
fn left_out(c: &mut Checker, chart: &Chart, lines: &[[u8; 5]]) {
    let kept: Vec<_> = lines.iter().filter(|_| !c.random.once_in(6)).copied().collect();
    c.check_reasons(&chart.bytes(), kept.as_flattened());
}

/// Any lines, of which many are steps of the chart.
fn any_lines(c: &mut Checker, times: usize) {
    for _ in 0..times {
        let chart = charts::any(&mut c.random, 4);
        let count = c.random.below(5);
        let lines: Vec<[u8; 5]> = (0..count).map(|_| lists::any_move(&mut c.random, &chart)).collect();
        c.check_reasons(&chart.bytes(), lines.as_flattened());
    }
}

/// Our own list, in which lines of the same depth change places: good. In which lines of any: not always.
fn shuffled(c: &mut Checker, n: usize) {
    let chart = charts::layers(&mut c.random, n, n / 2, false, 0);
    let (bytes, lines) = (chart.bytes(), own(&chart));
    let depths: Vec<usize> = crate::spelled::formulas(&bytes, &lines).unwrap().iter().map(|f| f.depth).collect();
    for _ in 0..3 {
        let mut order: Vec<usize> = (0..lines.len()).collect();
        c.random.shuffle(&mut order);
        let any: Vec<_> = order.iter().map(|&i| lines[i]).collect();
        c.check_reasons(&bytes, any.as_flattened());
        order.sort_by_key(|&i| depths[i]);
        let by_depth: Vec<_> = order.iter().map(|&i| lines[i]).collect();
        let told = c.check_reasons(&bytes, by_depth.as_flattened());
        expect_lines(c, "in another order", &told, lines.len());
    }
    if let Some(last) = lines.last() {
        // all that the last relies on comes after it
        let turned: Vec<_> = [last].into_iter().chain(&lines).copied().collect();
        let told = c.check_reasons(&bytes, turned.as_flattened());
        expect_bad(c, "the last line first", &told, if depths[lines.len() - 1] == 1 { lines.len() } else { 0 });
    }
}

/// Two rings of a and of 64 - a states. A student goes round both at once, back from two states that one step tells apart: each
/// pair relies on the one before by the step along the rings, and the formulas get as deep as there are lines.
fn deep(c: &mut Checker, a: usize) {
    let b = 64 - a;
    let chart = charts::two_rings(&mut c.random, a, b);
    let (mut i, mut j) = (1 % a, 1 % b);
    // state a + j steps by action 1 and state i does not, unless it is 0 or the other is a
    if i == 0 || j == 0 {
        return;
    }
    let back = |i: usize, n: usize| (i + n - 1) % n;
    let mut lines = vec![[i as u8, (a + j) as u8, 1, 1, (a + (j + 1) % b) as u8]];
    loop {
        let target = i;
        (i, j) = (back(i, a), back(j, b));
        if (i, j) == (1, 1) {
            break;
        }
        lines.push([i as u8, (a + j) as u8, 0, 0, target as u8]);
    }
    let told = c.check_reasons(&chart.bytes(), lines.as_flattened());
    expect_lines(c, "round two rings", &told, lines.len());
}

pub fn jobs() -> Vec<Job> {
    let mut jobs = shared([
        ("reasons: two rings", 2..=62, deep as fn(&mut Checker, usize)),
        ("reasons: in another order", 1..=40, shuffled),
    ]);
    for _ in 0..10 {
        jobs.push(Job { name: "reasons: large lists", run: Box::new(|c| drawn(c, 20, 40)) });
        jobs.push(Job { name: "reasons: middling lists", run: Box::new(|c| drawn(c, 300, 14)) });
        jobs.push(Job { name: "reasons: small lists", run: Box::new(|c| drawn(c, 2_500, 6)) });
        jobs.push(Job { name: "reasons: any lines", run: Box::new(|c| any_lines(c, 3_000)) });
    }
    jobs
}
