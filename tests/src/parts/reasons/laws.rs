//! The laws, beside the archive's other answers: our own list has a line for each pair of unequal mark, in the order of the marks;
//! the formula that a pair's lines spell is as deep as its mark; and as a sheet it holds, by the archive's own property, at p and
//! not at q. A student's list to which no pair can be added has all unequal pairs too.

use super::super::definitions::each_chart;
use super::expect_lines;
use crate::checker::Checker;
use crate::inputs::charts;
use crate::inputs::lists::{students, up_to, LONGEST};
use crate::reference::chart::Chart;
use crate::spelled::formulas;
use crate::Job;

/// The marks of our lines rise with p and q, all unequal pairs are there, each with a formula as deep as its mark.
fn marks(c: &mut Checker, chart: &Chart) -> Vec<[u8; 5]> {
    let (n, bytes) = (chart.states(), chart.bytes());
    let marks = c.marks(&bytes, n * n).buffer;
    let told = c.reasons(&bytes, LONGEST);
    c.expect_answered("a good chart", &told);
    let lines = told.buffer[..told.numbers[0].min(LONGEST as u64) as usize].as_chunks::<5>().0.to_vec();
    let mut pairs: Vec<_> = (0..n * n).filter(|&i| marks[i] != 0).map(|i| (marks[i], i / n, i % n)).collect();
    pairs.sort();
    let depths = formulas(&bytes, &lines).unwrap_or_default().into_iter().map(|formula| formula.depth);
    let spelled: Vec<_> =
        lines.iter().zip(depths).map(|(line, depth)| (depth as u8, line[0] as usize, line[1] as usize)).collect();
    c.expect(spelled == pairs, || format!("{chart:?}\n  spelled {spelled:?}\n  marks {pairs:?}"));
    let told = c.check_reasons(&bytes, lines.as_flattened());
    expect_lines(c, "our own list", &told, pairs.len());
    lines
}

/// The nodes of the formula that a line spells, by those of the lines before; nothing where they are more than a sheet can have.
fn sheet(chart: &Chart, line: [u8; 5], nodes_of: &dyn Fn(u8, u8) -> Option<Vec<u8>>) -> Option<Vec<u8>> {
    let [p, q, side, action, target] = line;
    let answering = if side == 0 { q } else { p };
    let answers = chart.steps.iter().filter(|s| (s.source, s.action) == (answering, action)).map(|s| s.target);
    let under: Option<Vec<_>> = answers.map(|u| if side == 0 { nodes_of(target, u) } else { nodes_of(u, target) }).collect();
    let (modal, join, none) = if side == 0 { (5, 3, 1) } else { (6, 4, 2) };
    // true and false stand alone; so many joints as there are formulas beyond the first
    let joined = under?.into_iter().reduce(|f, g| [&[join], f.as_slice(), &g].concat()).unwrap_or(vec![none]);
    let whole = [&[modal, action], joined.as_slice()].concat();
    (whole.len() < 250).then_some(whole)
}

/// How many nodes stand in these bytes.
fn count(nodes: &[u8]) -> usize {
    let (mut at, mut count) = (0, 0);
    while at < nodes.len() {
        at += if nodes[at] > 4 { 2 } else { 1 };
        count += 1;
    }
    count
}

/// Each formula that has at most 200 nodes, as a sheet.
fn as_sheets(c: &mut Checker, chart: &Chart, lines: &[[u8; 5]]) {
    let mut nodes: Vec<Option<Vec<u8>>> = vec![None; 64 * 64];
    let place = |p: u8, q: u8| 64 * p as usize + q as usize;
    for &line in lines {
        let [p, q, ..] = line;
        let Some(formula) = sheet(chart, line, &|x, y| nodes[place(x, y)].clone()) else { continue };
        if count(&formula) <= 200 {
            let sheet = [&[1, c.random.below(3) as u8, count(&formula) as u8], formula.as_slice()].concat();
            let told = c.property(&chart.bytes(), &sheet);
            let word = told.numbers[0];
            let fine = told.code == 0 && word >> p & 1 == 1 && word >> q & 1 == 0;
            c.expect(fine, || format!("{chart:?}\n  {line:?} spells {formula:?}, which holds in {word:b}"));
        }
        nodes[place(p, q)] = Some(formula);
    }
}

fn drawn(c: &mut Checker, times: usize, states: usize) {
    for _ in 0..times {
        let chart = charts::any(&mut c.random, states);
        let ours = marks(c, &chart);
        let theirs = up_to(&mut c.random, &chart, states * states);
        let told = c.check_reasons(&chart.bytes(), theirs.as_flattened());
        expect_lines(c, "a student's list of all pairs", &told, ours.len());
        if states <= 8 && c.random.once_in(4) {
            as_sheets(c, &chart, &ours);
            let theirs = students(&mut c.random, &chart);
            as_sheets(c, &chart, &theirs);
        }
    }
}

pub fn jobs() -> Vec<Job> {
    let mut jobs = Vec::new();
    for share in 0..8 {
        jobs.push(Job { name: "reasons: laws, large", run: Box::new(|c| drawn(c, 15, 64)) });
        jobs.push(Job { name: "reasons: laws, middling", run: Box::new(|c| drawn(c, 200, 16)) });
        jobs.push(Job { name: "reasons: laws, small", run: Box::new(|c| drawn(c, 1_000, 6)) });
        jobs.push(Job {
            name: "reasons: laws, all charts of three",
            run: Box::new(move |c| each_chart(3, 1, share, 8, |chart| drop(marks(c, chart)))),
        });
    }
    jobs
}
