//! Moves with many answers, of which one decides: each number of answers up to 64, and each of them as the only one that is equal, not
//! smaller or not listed, for both sides, with the lines known beforehand. And drawn charts where moves have many answers.

use super::super::shared;
use super::{expect_bad, expect_lines};
use crate::checker::Checker;
use crate::inputs::charts;
use crate::inputs::lists::{self, students, LONGEST};
use crate::inputs::random::Random;
use crate::reference::chart::Chart;
use crate::Job;

/// What is odd about one of the answers.
#[derive(Clone, Copy, PartialEq)]
enum Odd {
    /// Nothing: it is unequal to the target, by mark 1 as all others are.
    No,
    /// It is the target itself.
    Target,
    /// It is equal to the target.
    Equal,
    /// Its mark with the target is 2, as that of p and q is.
    Late,
}

/// Two states which action 1 tells apart in round 2, by q's step to t; action 0 does so only if no answer is odd. Then q steps by
/// action 0 to t and to p's answers, p to its answers alone.
struct Crowd {
    chart: Chart,
    p: u8,
    q: u8,
    t: u8,
    /// The states that p reaches by action 0, rising.
    answers: Vec<u8>,
}

/// k answers, of which number j is odd or none is.
fn crowd(r: &mut Random, k: usize, j: usize, odd: Odd) -> Crowd {
    let beside = (odd != Odd::Target) as usize;
    let n = if r.once_in(2) { 64 } else { r.within((k + beside).max(16), 64) };
    let mut order: Vec<usize> = (0..n).collect();
    r.shuffle(&mut order);
    let mut answers = order[beside..beside + k].to_vec();
    answers.sort();
    let (e, t) = (answers[j], if odd == Odd::Target { answers[j] } else { order[0] });
    r.shuffle(&mut order);
    order.retain(|&s| s != e && s != t);
    let [p, q, rest] = [order[0], order[1], order[2]];
    let mut steps = vec![(p, 1, rest), (q, 1, rest), (q, 1, t), (t, 2, t), (q, 0, t)];
    steps.extend(answers.iter().map(|&a| (p, 0, a)));
    steps.extend(answers.iter().filter(|&&a| odd == Odd::No || a != e).map(|&a| (q, 0, a)));
    match odd {
        Odd::Equal => steps.push((e, 2, t)),
        Odd::Late => steps.push((e, 2, rest)),
        Odd::No | Odd::Target => {}
    }
    let answers = answers.into_iter().map(|a| a as u8).collect();
    Crowd { chart: charts::chart(r, n, 3, steps), p: p as u8, q: q as u8, t: t as u8, answers }
}

impl Crowd {
    /// The line of p and q, side 1, or of q and p, side 0, by q's step to t.
    fn line(&self, side: u8, action: u8) -> [u8; 5] {
        let (first, second) = if side == 0 { (self.q, self.p) } else { (self.p, self.q) };
        [first, second, side, action, self.t]
    }

    /// A line for t and an answer, in the order in which that line relies on them.
    fn relied(&self, side: u8, answer: u8) -> [u8; 5] {
        let (first, second) = if side == 0 { (self.t, answer) } else { (answer, self.t) };
        [first, second, side, 2, self.t]
    }

    /// These lines for all answers but one, in any order.
    fn all_but(&self, r: &mut Random, side: u8, left_out: Option<usize>) -> Vec<[u8; 5]> {
        let mut order: Vec<usize> = (0..self.answers.len()).filter(|&i| Some(i) != left_out).collect();
        r.shuffle(&mut order);
        order.into_iter().map(|i| self.relied(side, self.answers[i])).collect()
    }
}

/// Our list has the two lines by this action.
fn ours(c: &mut Checker, crowd: &Crowd, action: u8) {
    let told = c.reasons(&crowd.chart.bytes(), LONGEST);
    c.expect_answered("a good chart", &told);
    let lines = told.buffer[..told.numbers[0].min(LONGEST as u64) as usize].as_chunks::<5>().0;
    for side in 0..2 {
        let line = crowd.line(side, action);
        c.expect(lines.contains(&line), || format!("{:?}\n  lacks {line:?}", crowd.chart));
    }
}

/// All answers are listed.
fn all_listed(c: &mut Checker, k: usize) {
    let crowd = crowd(&mut c.random, k, 0, Odd::No);
    ours(c, &crowd, 0);
    for side in 0..2 {
        let mut list = crowd.all_but(&mut c.random, side, None);
        list.push(crowd.line(side, 0));
        let told = c.check_reasons(&crowd.chart.bytes(), list.as_flattened());
        expect_lines(c, "all answers listed", &told, k + 1);
    }
}

/// Answer j alone is not listed: nowhere, after the line, or in the other order.
fn one_unlisted(c: &mut Checker, crowd: &Crowd, j: usize) {
    for side in 0..2 {
        let mut list = crowd.all_but(&mut c.random, side, Some(j));
        let how = c.random.below(3);
        if how == 1 {
            list.push(crowd.relied(1 - side, crowd.answers[j]));
        }
        let bad = list.len();
        list.push(crowd.line(side, 0));
        if how == 2 {
            list.push(crowd.relied(side, crowd.answers[j]));
        }
        let told = c.check_reasons(&crowd.chart.bytes(), list.as_flattened());
        expect_bad(c, "one answer unlisted", &told, bad);
    }
}

/// k answers, each in turn as the one that decides.
fn answers(c: &mut Checker, k: usize) {
    if k < 64 {
        all_listed(c, k);
    }
    for j in 0..k {
        let odd = if k < 64 { [Odd::Target, Odd::Equal, Odd::Late][c.random.below(3)] } else { Odd::Target };
        let with_odd = crowd(&mut c.random, k, j, odd);
        ours(c, &with_odd, 1);
        for side in 0..2 {
            let mut list = with_odd.all_but(&mut c.random, side, Some(j));
            list.push(with_odd.line(side, 0));
            let told = c.check_reasons(&with_odd.chart.bytes(), list.as_flattened());
            expect_bad(c, "one answer odd", &told, k - 1);
        }
        if k < 64 {
            let plain = crowd(&mut c.random, k, j, Odd::No);
            one_unlisted(c, &plain, j);
        }
    }
}

/// One action or two and up to so many triples: our list, a student's and such with a fault.
fn crowded(c: &mut Checker, sixteens: usize) {
    let t = 16 * sixteens;
    for m in 1..=2 {
        let n = c.random.within(40, 64);
        for chart in [charts::blocks(&mut c.random, n, m, t), charts::forward(&mut c.random, n, m, t)] {
            let bytes = chart.bytes();
            let told = c.reasons(&bytes, LONGEST);
            c.expect_answered("a good chart", &told);
            let lines = students(&mut c.random, &chart);
            let told = c.check_reasons(&bytes, lines.as_flattened());
            expect_lines(c, "a student's list", &told, lines.len());
            let damaged = lists::damaged(&mut c.random, &chart, &lines);
            c.check_reasons(&bytes, &damaged);
        }
    }
}

pub fn jobs() -> Vec<Job> {
    shared([("reasons: crowded charts", 0..=64, crowded as fn(&mut Checker, usize)), ("reasons: answers", 1..=64, answers)])
}
