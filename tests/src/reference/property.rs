//! The states that satisfy a property sheet, as document 01 says it: every diamond and box looks at every transition, in every round.

use super::chart::{self, Chart};
use super::refusal::Refusal;
use super::settle::settle;
use super::sheet::{self, Action, Formula, Solution};

/// A set of states: true where the state is in it.
pub type Set = Vec<bool>;

#[derive(Clone, Copy, PartialEq, Eq, Debug)]
pub struct Satisfying {
    pub word: u64,
    pub count: u64,
    pub rounds: u64,
}

/// Where the formula holds, given a set that stands for the variable.
pub fn holds(chart: &Chart, formula: &Formula, given: &Set) -> Set {
    match formula {
        Formula::Variable => given.clone(),
        Formula::True => vec![true; chart.states()],
        Formula::False => vec![false; chart.states()],
        Formula::And(f, g) => meet(&holds(chart, f, given), &holds(chart, g, given)),
        Formula::Or(f, g) => union(&holds(chart, f, given), &holds(chart, g, given)),
        Formula::Diamond(Action::Only(a), f) => diamond(chart, *a, &holds(chart, f, given)),
        Formula::Box(Action::Only(a), f) => every(chart, *a, &holds(chart, f, given)),
        Formula::Diamond(Action::Every, f) => {
            let inner = holds(chart, f, given);
            let none = vec![false; chart.states()];
            (0..chart.actions()).fold(none, |so_far, a| union(&so_far, &diamond(chart, a as u8, &inner)))
        }
        Formula::Box(Action::Every, f) => {
            let inner = holds(chart, f, given);
            let all = vec![true; chart.states()];
            (0..chart.actions()).fold(all, |so_far, a| meet(&so_far, &every(chart, a as u8, &inner)))
        }
    }
}

/// Some a-step reaches the set.
fn diamond(chart: &Chart, a: u8, set: &Set) -> Set {
    let mut out = vec![false; chart.states()];
    for step in chart.steps.iter().filter(|s| s.action == a) {
        if set[step.target as usize] {
            out[step.source as usize] = true;
        }
    }
    out
}

/// Every a-step reaches the set.
fn every(chart: &Chart, a: u8, set: &Set) -> Set {
    let mut out = vec![true; chart.states()];
    for step in chart.steps.iter().filter(|s| s.action == a) {
        if !set[step.target as usize] {
            out[step.source as usize] = false;
        }
    }
    out
}

fn meet(f: &Set, g: &Set) -> Set {
    f.iter().zip(g).map(|(&a, &b)| a && b).collect()
}

fn union(f: &Set, g: &Set) -> Set {
    f.iter().zip(g).map(|(&a, &b)| a || b).collect()
}

/// Bit s is set where state s is in the set.
pub fn word(set: &Set) -> u64 {
    set.iter().enumerate().map(|(s, &is)| (is as u64) << s).sum()
}

/// The least solution is where the applications settle from the empty set, the greatest where they do from all states.
pub fn solved(chart: &Chart, formula: &Formula, solution: Solution) -> Result<Satisfying, Refusal> {
    let start = match solution {
        Solution::Least => vec![false; chart.states()],
        Solution::Greatest => vec![true; chart.states()],
    };
    let (set, rounds) = settle(start, |given| holds(chart, formula, given))?;
    Ok(Satisfying { word: word(&set), count: set.iter().filter(|&&is| is).count() as u64, rounds })
}

pub fn property(chart: &[u8], sheet: &[u8]) -> Result<Satisfying, Refusal> {
    let chart = chart::read(chart)?;
    let sheet = sheet::read(sheet, chart.actions())?;
    solved(&chart, &sheet.formula, sheet::solution_of(sheet.kind))
}
