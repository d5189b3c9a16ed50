//! Two charts, to be put side by side.

use super::charts;
use super::random::Random;
use crate::reference::chart::{Chart, Step};
use std::collections::BTreeSet;

/// Action codes for two charts, so many each, some of which are `shared`.
pub fn codes(r: &mut Random, [m1, m2]: [usize; 2], shared: usize) -> [Vec<u8>; 2] {
    let mut all: Vec<usize> = (0..256).collect();
    r.shuffle(&mut all);
    [0..m1, m1 - shared..m1 + m2 - shared].map(|part| {
        let mut codes: Vec<u8> = all[part].iter().map(|&code| code as u8).collect();
        codes.sort();
        codes
    })
}

/// Two charts with other action codes, of which there are at most 32 together, and of which any number may be shared.
pub fn coded(r: &mut Random, [first, second]: [Chart; 2]) -> [Chart; 2] {
    let (m1, m2) = (first.actions(), second.actions());
    let shared = r.within((m1 + m2).saturating_sub(32), m1.min(m2));
    let [codes1, codes2] = codes(r, [m1, m2], shared);
    [Chart { codes: codes1, ..first }, Chart { codes: codes2, ..second }]
}

/// n states, m actions and t steps of each, drawn.
pub fn drawn(r: &mut Random, [n1, n2]: [usize; 2], [m1, m2]: [usize; 2], [t1, t2]: [usize; 2]) -> [Chart; 2] {
    let both = [charts::drawn(r, n1, m1, t1), charts::drawn(r, n2, m2, t2)];
    coded(r, both)
}

fn sorted(mut steps: Vec<Step>) -> Vec<Step> {
    steps.sort();
    steps.dedup();
    steps
}

/// The same states in another order, so that each has a partner.
pub fn shuffled(r: &mut Random, chart: &Chart) -> Chart {
    let mut place: Vec<usize> = (0..chart.states()).collect();
    r.shuffle(&mut place);
    let to = |s: u8| place[s as usize] as u8;
    let steps = chart.steps.iter().map(|s| Step { source: to(s.source), target: to(s.target), ..*s }).collect();
    Chart { steps: sorted(steps), ..chart.clone() }
}

/// The same chart with other action codes beside its own, which no step bears, so that its own have other places.
pub fn with_more_codes(r: &mut Random, chart: &Chart, more: usize) -> Chart {
    let mut codes: BTreeSet<u8> = chart.codes.iter().copied().collect();
    while codes.len() < chart.actions() + more {
        codes.insert(r.byte());
    }
    let codes: Vec<u8> = codes.into_iter().collect();
    let place = |a: u8| codes.iter().position(|&code| code == chart.codes[a as usize]).unwrap() as u8;
    let steps = chart.steps.iter().map(|s| Step { action: place(s.action), ..*s }).collect();
    Chart { codes: codes.clone(), steps, ..chart.clone() }
}

/// A step led to another target, or taken away.
pub fn changed(r: &mut Random, chart: &Chart) -> Chart {
    let mut steps = chart.steps.clone();
    if !steps.is_empty() {
        let i = r.below(steps.len());
        match r.below(3) {
            0 => {
                steps.remove(i);
            }
            _ => steps[i].target = r.below(chart.states()) as u8,
        }
    }
    Chart { steps: sorted(steps), ..chart.clone() }
}

/// Two charts with at most `largest` states together, two or more: alike in all, in nearly all, or in little.
pub fn any(r: &mut Random, largest: usize) -> [Chart; 2] {
    if r.once_in(2) {
        let n1 = r.within(1, largest - 1);
        let both = [charts::any(r, n1), charts::any(r, largest - n1)];
        return coded(r, both);
    }
    let first = charts::any(r, largest / 2);
    let more = r.below(33 - first.actions()).min(3);
    let mut second = shuffled(r, &first);
    for _ in 0..r.below(3) {
        second = changed(r, &second);
    }
    let second = with_more_codes(r, &second, more);
    if r.once_in(2) {
        [first, second]
    } else {
        [second, first]
    }
}

/// One chart of both: the second's states after the first's, an action for each code.
pub fn side_by_side(first: &Chart, second: &Chart) -> Chart {
    let codes: BTreeSet<u8> = first.codes.iter().chain(&second.codes).copied().collect();
    let codes: Vec<u8> = codes.into_iter().collect();
    let mut steps = Vec::new();
    for (chart, by) in [(first, 0), (second, first.states() as u8)] {
        let place = |a: u8| codes.binary_search(&chart.codes[a as usize]).unwrap() as u8;
        let step = |s: &Step| Step { source: s.source + by, action: place(s.action), target: s.target + by };
        steps.extend(chart.steps.iter().map(step));
    }
    Chart { modes: [first.modes.as_slice(), &second.modes].concat(), codes, steps: sorted(steps) }
}
