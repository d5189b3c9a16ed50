//! Marks and the largest simulation.

use super::chart::{self, Step};
use super::refusal::{long_enough, Refusal};
use super::settle::settle;

#[derive(Clone, Copy, PartialEq, Eq, Debug)]
pub struct Matrix {
    pub states: u64,
    pub rounds: u64,
}

/// A relation on states: `r[p][q]`.
pub type Relation = Vec<Vec<bool>>;

/// Each step of p is matched by a step of q with the same action, targets related.
pub fn matched(of_p: &[Step], of_q: &[Step], related: impl Fn(usize, usize) -> bool) -> bool {
    of_p.iter().all(|s| of_q.iter().any(|u| u.action == s.action && related(s.target as usize, u.target as usize)))
}

fn relation(n: usize, holds: impl Fn(usize, usize) -> bool) -> Relation {
    (0..n).map(|p| (0..n).map(|q| holds(p, q)).collect()).collect()
}

pub fn marks(chart: &[u8], buffer: &mut [u8]) -> Result<Matrix, Refusal> {
    let chart = chart::read(chart)?;
    let n = chart.states();
    long_enough(buffer, n * n)?;
    let (marks, rounds) = marks_of(&chart.steps_by_source())?;
    buffer[..n * n].copy_from_slice(&marks);
    Ok(Matrix { states: n as u64, rounds })
}

/// The marks of all pairs, and the rounds, from the steps of each state.
pub fn marks_of(steps: &[Vec<Step>]) -> Result<(Vec<u8>, u64), Refusal> {
    let n = steps.len();
    let mut marks = vec![0; n * n];
    let mut k = 0;
    let (_, rounds) = settle(relation(n, |_, _| true), |r| {
        let next =
            relation(n, |p, q| matched(&steps[p], &steps[q], |x, y| r[x][y]) && matched(&steps[q], &steps[p], |y, x| r[x][y]));
        // the mark is the first k with the pair not in Rk
        k += 1;
        for p in 0..n {
            for q in 0..n {
                if !next[p][q] && marks[p * n + q] == 0 {
                    marks[p * n + q] = k;
                }
            }
        }
        next
    })?;
    Ok((marks, rounds))
}

pub fn simulation(chart: &[u8], buffer: &mut [u8]) -> Result<Matrix, Refusal> {
    let chart = chart::read(chart)?;
    let n = chart.states();
    long_enough(buffer, n * n)?;
    let steps = chart.steps_by_source();
    let (r, rounds) = settle(relation(n, |_, _| true), |r| relation(n, |p, q| matched(&steps[p], &steps[q], |x, y| r[x][y])))?;
    for p in 0..n {
        for q in 0..n {
            buffer[p * n + q] = r[p][q] as u8;
        }
    }
    Ok(Matrix { states: n as u64, rounds })
}
