//! Comparisons beside the definitions themselves, on charts so small that all relations between them and all formulas can be
//! tried; and the laws: the marks are those of the two side by side, swapping them swaps the lists, a chart is its own partner.

use super::super::definitions::{each_chart, smallest_depths};
use super::{expect_list, list};
use crate::checker::Checker;
use crate::inputs::pairs;
use crate::reference::chart::{Chart, Step};
use crate::Job;

/// The pairs that some strong bisimulation between the two charts relates: bit p * n2 + q.
fn partners(first: &Chart, second: &Chart) -> u32 {
    let n2 = second.states();
    let (of_first, of_second) = (first.steps_by_source(), second.steps_by_source());
    let matches = |s: &Step, u: &Step| first.codes[s.action as usize] == second.codes[u.action as usize];
    let mut union = 0;
    for set in 0..1u32 << (first.states() * n2) {
        let related = |s: &Step, u: &Step| set >> (s.target as usize * n2 + u.target as usize) & 1 == 1;
        let pairs = (0..first.states() * n2).filter(|i| set >> i & 1 == 1).map(|i| (&of_first[i / n2], &of_second[i % n2]));
        let mut each = pairs.map(|(of_p, of_q)| {
            of_p.iter().all(|s| of_q.iter().any(|u| matches(s, u) && related(s, u)))
                && of_q.iter().all(|u| of_p.iter().any(|s| matches(s, u) && related(s, u)))
        });
        if each.all(|matched| matched) {
            union |= set;
        }
    }
    union
}

/// The states without a partner, by all relations; the mark of the start states, by all formulas.
fn by_definition(c: &mut Checker, first: &Chart, second: &Chart) {
    let (n1, n2) = (first.states(), second.states());
    let partners = partners(first, second);
    let bisimilar = |p: usize, q: usize| partners >> (p * n2 + q) & 1 == 1;
    let alone = [
        (0..n1).filter(|&p| !(0..n2).any(|q| bisimilar(p, q))).collect(),
        (0..n2).filter(|&q| !(0..n1).any(|p| bisimilar(p, q))).collect(),
    ];
    let told = c.compare(&first.bytes(), &second.bytes(), 67);
    if n1 + n2 <= 5 {
        let depths = smallest_depths(&pairs::side_by_side(first, second));
        let rounds = *depths.iter().max().unwrap() as usize;
        expect_list(c, "by definition", &told, rounds, &list(depths[n1] as usize, &alone));
    }
    let start = told.buffer[0] as usize;
    c.expect((start == 0) == bisimilar(0, 0), || format!("{first:?}\n  {second:?}\n  start states have mark {start}"));
    expect_list(c, "by all relations", &told, told.numbers[1] as usize, &list(start, &alone));
}

/// What the archive's own marks say of the two side by side; and the comparison the other way round.
fn laws(c: &mut Checker, first: &Chart, second: &Chart) {
    let (n1, n) = (first.states(), first.states() + second.states());
    let whole = pairs::side_by_side(first, second);
    let marks = c.marks(&whole.bytes(), n * n);
    let told = c.compare(&first.bytes(), &second.bytes(), 67);
    let other = c.compare(&second.bytes(), &first.bytes(), 67);
    if marks.code != 0 || told.code != 0 {
        c.expect(marks.code != 0 && told.code == other.code, || format!("told {:?}", told.refusal()));
        return;
    }
    let alone = [
        (0..n1).filter(|p| (n1..n).all(|q| marks.buffer[p * n + q] != 0)).collect::<Vec<_>>(),
        (n1..n).filter(|q| (0..n1).all(|p| marks.buffer[q * n + p] != 0)).map(|q| q - n1).collect(),
    ];
    let (start, rounds) = (marks.buffer[n1] as usize, marks.numbers[1] as usize);
    expect_list(c, "as the marks", &told, rounds, &list(start, &alone));
    let [of_first, of_second] = alone;
    expect_list(c, "swapped", &other, rounds, &list(start, &[of_second, of_first]));
}

/// A chart beside itself: three zeros, or too large; the rounds are its own.
fn itself(c: &mut Checker, chart: &Chart) {
    let bytes = chart.bytes();
    let told = c.compare(&bytes, &bytes, 67);
    if chart.states() > 32 {
        c.expect_refused("beside itself", &told, (2, 18, 0, 0));
    } else if chart.steps.len() > 512 {
        c.expect_refused("beside itself", &told, (2, 20, 0, 0));
    } else {
        let marks = c.marks(&bytes, chart.states().pow(2));
        expect_list(c, "beside itself", &told, marks.numbers[1] as usize, &[0, 0, 0]);
    }
}

fn drawn_laws(c: &mut Checker, times: usize, states: usize) {
    for _ in 0..times {
        let [first, second] = pairs::any(&mut c.random, states);
        laws(c, &first, &second);
        itself(c, &first);
    }
}

fn drawn_by_definition(c: &mut Checker) {
    for _ in 0..2_000 {
        let n = [c.random.within(1, 3), c.random.within(1, 3)];
        let m = [c.random.within(0, 3), c.random.within(0, 3)];
        let t = [0, 1].map(|i| c.random.within(0, (n[i] * m[i] * n[i]).min(7)));
        let [first, second] = pairs::drawn(&mut c.random, n, m, t);
        by_definition(c, &first, &second);
    }
}

/// Every two charts of so many states and actions; the second's codes are 0 and 1 like the first's, or 1 and 2.
fn all_small(c: &mut Checker, [n1, n2]: [usize; 2], m: usize, share: usize, shares: usize) {
    each_chart(n1, m, share, shares, |first| {
        each_chart(n2, m, 0, 1, |second| {
            let by = c.random.below(2) as u8;
            let codes = second.codes.iter().map(|code| code + by).collect();
            by_definition(c, first, &Chart { codes, ..second.clone() });
        });
    });
}

pub fn jobs() -> Vec<Job> {
    let mut jobs = Vec::new();
    for share in 0..8 {
        jobs.push(Job {
            name: "comparison: all charts of two states",
            run: Box::new(move |c| all_small(c, [2, 2], 2, share, 8)),
        });
        jobs.push(Job {
            name: "comparison: all charts of three states and two",
            run: Box::new(move |c| all_small(c, [3, 2], 1, share, 8)),
        });
        jobs.push(Job { name: "comparison: all relations, drawn", run: Box::new(drawn_by_definition) });
        jobs.push(Job { name: "comparison: laws, small", run: Box::new(|c| drawn_laws(c, 1_500, 10)) });
        jobs.push(Job { name: "comparison: laws, large", run: Box::new(|c| drawn_laws(c, 60, 64)) });
    }
    for n in [[1, 1], [1, 2], [2, 1]] {
        jobs.push(Job { name: "comparison: all small charts", run: Box::new(move |c| all_small(c, n, 2, 0, 1)) });
    }
    jobs
}
