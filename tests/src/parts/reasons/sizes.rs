//! Our own lists at every size: every number of states, also with all pairs unequal, of actions and of transitions, every depth up
//! to 63, also on the longest charts, lists of every length in hundreds of lines, and buffers of every length.

use super::super::shared;
use super::answered;
use crate::checker::Checker;
use crate::inputs::charts;
use crate::inputs::lists::LONGEST;
use crate::reference::chart::Chart;
use crate::Job;

/// Every number of states, with some numbers of actions.
fn states_and_actions(c: &mut Checker, n: usize) {
    for m in [0, 1, 2, 3, 4, 8, c.random.within(5, 31), 32] {
        let t = c.random.within(0, (n * m * n).min(2 * n));
        let chart = charts::drawn(&mut c.random, n, m, t);
        answered(c, &chart);
    }
    for chart in [charts::chain(&mut c.random, n), charts::ring(&mut c.random, n)] {
        let list = answered(c, &chart);
        c.expect(list.len() == 5 * n * (n - 1), || format!("{n} unequal states: {} bytes", list.len()));
    }
}

/// Our list once, and its check.
fn once(c: &mut Checker, chart: &Chart) -> Vec<u8> {
    let bytes = chart.bytes();
    let buffer = LONGEST + c.random.below(2) * c.too_long();
    let told = c.reasons(&bytes, buffer);
    c.expect_answered("a good chart", &told);
    let list = told.buffer[..told.numbers[0].min(LONGEST as u64) as usize].to_vec();
    c.check_reasons(&bytes, &list);
    list
}

fn transitions(c: &mut Checker, t: usize) {
    // with 32 actions six states have room for 1,024
    let n = 6 + t * 7 % 59;
    let chart = charts::drawn(&mut c.random, n, 32, t);
    once(c, &chart);
}

/// So many rounds: formulas are as deep, of 64 states and on the longest charts.
fn depths(c: &mut Checker, k: usize) {
    let closed = c.random.once_in(2);
    let chart = charts::layers(&mut c.random, 64, k, closed, 0);
    once(c, &chart);
    let chart = charts::longest_layers(&mut c.random, k, true);
    once(c, &chart);
}

/// 64 states in classes of these sizes: those of a class have loops by the same actions, and no two classes by the same. So two
/// states are unequal where their classes are.
fn classes(c: &mut Checker, sizes: &[usize]) -> Chart {
    let mut class: Vec<usize> = sizes.iter().enumerate().flat_map(|(i, &size)| vec![i; size]).collect();
    c.random.shuffle(&mut class);
    let loops = class.iter().enumerate().flat_map(|(s, &i)| (0..6).filter(move |a| i >> a & 1 == 1).map(move |a| (s, a, s)));
    charts::chart(&mut c.random, 64, 6, loops.collect::<Vec<_>>())
}

/// About so many hundreds of lines: one class is as large as that many unequal pairs leave, and then the next.
fn lines(c: &mut Checker, hundreds: usize) {
    let (mut left, mut sizes) = (64, Vec::new());
    let mut equal = 4096 - (100 * hundreds).min(4032);
    while left > 0 {
        // the greatest class that leaves each of the others at least equal to itself
        let size = (1..=left).rev().find(|&size| size * size + (left - size) <= equal).unwrap_or(1);
        sizes.push(size);
        (left, equal) = (left - size, equal.saturating_sub(size * size));
    }
    let chart = classes(c, &sizes);
    let list = answered(c, &chart);
    let expected = 4096 - sizes.iter().map(|size| size * size).sum::<usize>();
    c.expect(list.len() == 5 * expected, || format!("classes of {sizes:?}: {} bytes", list.len()));
}

/// 64 states, of which one has a step: it is told from each other by that step, on whichever side it stands.
fn one_step(c: &mut Checker, target: usize) {
    for action in [target % 32, c.random.below(32)] {
        let source = c.random.below(2) * c.random.below(64);
        let chart = charts::chart(&mut c.random, 64, 32, [(source, action, target)]);
        let list = answered(c, &chart);
        let (p, q, side) = if source == 0 { (0, 1, 0) } else { (0, source as u8, 1) };
        let fine = list.len() == 5 * 126 && list[..5] == [p, q, side, action as u8, target as u8];
        c.expect(fine, || format!("one step ({source}, {action}, {target}): {:?}", &list[..10]));
    }
}

/// Buffers of every length, from none to more than is needed.
fn buffers(c: &mut Checker) {
    for n in 1..=9 {
        let chart = charts::ring(&mut c.random, n).bytes();
        for length in 0..=5 * n * (n - 1) + 7 {
            c.reasons(&chart, length);
        }
    }
}

/// Around the longest list: 20,160 bytes.
fn longest(c: &mut Checker) {
    let chart = charts::ring(&mut c.random, 64).bytes();
    for length in [0, 1, 4_096, 20_154, 20_155, 20_156, 20_158, 20_159] {
        let told = c.reasons(&chart, length);
        c.expect_refused("the longest list", &told, (2, 14, 0, 0));
    }
    for length in [20_160, 20_161, 20_165, 40_320, 70_000] {
        let told = c.reasons(&chart, length);
        c.expect(told.code == 0 && told.numbers[0] == 20_160, || format!("the longest list: {:?}", told.refusal()));
    }
}

pub fn jobs() -> Vec<Job> {
    let mut jobs = shared([
        ("reasons: depths", 0..=63, depths as fn(&mut Checker, usize)),
        ("reasons: states and actions", 1..=64, states_and_actions),
        ("reasons: transitions", 0..=1024, transitions),
        ("reasons: lists of every length", 0..=41, lines),
        ("reasons: one step", 0..=63, one_step),
    ]);
    jobs.push(Job { name: "reasons: buffers", run: Box::new(buffers) });
    jobs.push(Job { name: "reasons: the longest list", run: Box::new(longest) });
    jobs
}
