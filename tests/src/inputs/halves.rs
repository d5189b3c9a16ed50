//! Charts and a formula of whose least and greatest solution everything is known beforehand.

use super::charts;
use super::random::Random;
use crate::reference::chart::Chart;
use std::collections::BTreeSet;

/// What the two solutions are to be. Together these are at most as many as there are states; where neither takes a round, they differ
/// in all of them.
#[derive(Clone, Copy)]
pub struct Wanted {
    /// The rounds of the least solution, and of the greatest.
    pub rising: usize,
    pub falling: usize,
    /// The states that only the greatest has.
    pub between: usize,
}

pub struct Halves {
    pub chart: Chart,
    /// Eleven nodes.
    pub formula: Vec<u8>,
    /// The words.
    pub least: u64,
    pub greatest: u64,
}

impl Halves {
    pub fn sheet(&self, kind: u8) -> Vec<u8> {
        [&[1, kind, 11], self.formula.as_slice()].concat()
    }
}

/// The states in layers: those that the least solution takes in, those that the greatest loses, a layer a round, and those between.
struct Division {
    rising: Vec<Vec<usize>>,
    falling: Vec<Vec<usize>>,
    between: Vec<usize>,
}

/// The first states are those between; what is left when every layer has one goes to any layer.
fn divided(r: &mut Random, states: &[usize], wanted: Wanted) -> Division {
    let (between, others) = states.split_at(wanted.between);
    let layers = wanted.rising + wanted.falling;
    let mut all = vec![Vec::new(); layers];
    for (i, &s) in others.iter().enumerate() {
        all[if i < layers { i } else { r.below(layers) }].push(s);
    }
    let falling = all.split_off(wanted.rising);
    Division { rising: all, falling, between: between.to_vec() }
}

type Steps = BTreeSet<(usize, usize, usize)>;

/// A step from s to one of these, by this action; and up to two more to any of the others.
fn step(r: &mut Random, out: &mut Steps, s: usize, action: usize, to: &[usize], others: &[&[usize]]) {
    out.insert((s, action, r.any_of(to)));
    let others = others.concat();
    for _ in 0..if others.is_empty() { 0 } else { r.below(3) } {
        out.insert((s, action, r.any_of(&others)));
    }
}

/// "Or (diamond once true), or (diamond up X), and (diamond down true), box down X". A rising state has a step by `once`, or one by `up`
/// to the layer below and perhaps to others, though to no lower layer. A falling one rests, or has such steps by `down`: all of them
/// must stay, and the layer below goes. Those between hold each other by `up` or by `down`, so that only the greatest has them.
fn steps(r: &mut Random, division: &Division, [once, up, down]: [usize; 3]) -> Steps {
    let Division { rising, falling, between } = division;
    let (risen, fallen) = (rising.concat(), falling.concat());
    let mut out = BTreeSet::new();
    for (layer, s) in rising.iter().enumerate().flat_map(|(layer, of)| of.iter().map(move |&s| (layer, s))) {
        match layer.checked_sub(1) {
            None => step(r, &mut out, s, once, &risen, &[&fallen]),
            Some(below) => step(r, &mut out, s, up, &rising[below], &[&rising[below..].concat(), &fallen, between]),
        }
    }
    for (layer, s) in falling.iter().enumerate().flat_map(|(layer, of)| of.iter().map(move |&s| (layer, s))) {
        if let Some(below) = layer.checked_sub(1) {
            step(r, &mut out, s, down, &falling[below], &[&falling[below..].concat(), &risen, between]);
        }
    }
    for &s in between {
        if r.once_in(2) {
            step(r, &mut out, s, up, between, &[&fallen]);
        } else {
            step(r, &mut out, s, down, between, &[&risen]);
        }
    }
    out
}

/// Of these states, with m actions, at least three, and where there are more so many steps that the chart has t.
pub fn halves(r: &mut Random, states: &[usize], wanted: Wanted, m: usize, t: usize) -> Halves {
    let division = divided(r, states, wanted);
    let mut actions: Vec<usize> = (0..m).collect();
    r.shuffle(&mut actions);
    let three = [actions[0], actions[1], actions[2]];
    let mut steps = steps(r, &division, three);
    while m > 3 && steps.len() < t {
        steps.insert((r.below(states.len()), r.any_of(&actions[3..]), r.below(states.len())));
    }
    let word = |set: &[usize]| set.iter().fold(0, |so_far, s| so_far | 1u64 << s);
    let least = word(&division.rising.concat());
    let [once, up, down] = three.map(|action| action as u8);
    Halves {
        chart: charts::chart(r, states.len(), m, steps),
        formula: vec![4, 5, once, 1, 4, 5, up, 0, 3, 5, down, 1, 6, down, 0],
        least,
        greatest: least | word(&division.between),
    }
}

/// n states in any order.
pub fn shuffled(r: &mut Random, n: usize) -> Vec<usize> {
    let mut states: Vec<usize> = (0..n).collect();
    r.shuffle(&mut states);
    states
}
