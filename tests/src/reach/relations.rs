//! What must be reached by each question whose answer is a relation of states, or is counted from one: every size of the table of steps,
//! and every word of it that decides alone.

use super::Row;
use crate::archive::Question::{EqualPairs, EqualRows, Marks, Simulation};
use crate::outcome::Outcome;
use crate::steps::triples;

pub const ROWS: &[Row] = &[
    ("states and actions of a relation", |o| Some((33 * o.states() + o.actions()) as u64), 33..=64 * 33 + 32),
    ("word of the table that decides, 64 states", deciding, 0..=32 * 64 - 1),
];

pub fn answered(o: &Outcome) -> bool {
    [Marks, Simulation, EqualRows, EqualPairs].iter().any(|&question| o.answers(question))
}

/// So many words the table takes.
pub fn words(o: &Outcome) -> usize {
    (o.actions() + 1) * o.states()
}

/// Of 64 states four steps: one loops, by an action of its own; two others step by one action to the same state, and one of them to that
/// which loops too. So these two are told apart by the word of that action and of the state that loops.
fn deciding(o: &Outcome) -> Option<u64> {
    let steps = triples(o.left.chart.part());
    if o.states() != 64 || steps.len() != 4 {
        return None;
    }
    let &[state, own, _] = steps.iter().find(|step| step[0] == step[2])?;
    let [source, action, _] = *steps.iter().find(|step| step[1] != own && step[2] == state)?;
    let others: Vec<_> = steps.iter().filter(|step| step[1] == action && step[2] != state).collect();
    let [one, other] = others[..] else { return None };
    let decides = one[2] == other[2] && one[0] != other[0] && [one[0], other[0]].contains(&source);
    decides.then_some(64 * action as u64 + state as u64)
}
