//! Which states are equal, and how many pairs: document 02, T-07.

use super::chart::{self, Chart};
use super::nearness::Relation;
use super::refusal::Refusal;
use super::settle::settle;
use std::collections::BTreeSet;

/// What tells two states apart once their steps are looked at: the class of each, and by which actions it reaches which classes.
type Seen = (usize, BTreeSet<(u8, usize)>);

/// For each state the lowest state that is bisimilar to it. At first all have the class of state 0; two states stay in one class where
/// they reach the same classes by the same actions, and what settles so is the largest strong bisimulation.
fn lowest(chart: &Chart) -> Result<Vec<usize>, Refusal> {
    let steps = chart.steps_by_source();
    let (classes, _) = settle(vec![0; chart.states()], |class| {
        let seen: Vec<Seen> = (0..class.len())
            .map(|s| (class[s], steps[s].iter().map(|step| (step.action, class[step.target as usize])).collect()))
            .collect();
        seen.iter().map(|of_s| seen.iter().position(|of_t| of_t == of_s).expect("its own")).collect()
    })?;
    Ok(classes)
}

/// Row p has q where the two are equal.
pub fn equal_rows(chart: &[u8]) -> Result<Relation, Refusal> {
    let lowest = lowest(&chart::read(chart)?)?;
    Ok(lowest.iter().map(|of_p| lowest.iter().map(|of_q| of_p == of_q).collect()).collect())
}

/// All pairs (p, q) of equal states, in both orders, and each state with itself.
pub fn equal_pairs(chart: &[u8]) -> Result<u64, Refusal> {
    let lowest = lowest(&chart::read(chart)?)?;
    let with = |of_p: &usize| lowest.iter().filter(|of_q| *of_q == of_p).count() as u64;
    Ok(lowest.iter().map(with).sum())
}
