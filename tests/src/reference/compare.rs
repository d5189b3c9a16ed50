//! Old unit beside new: document 02, T-01.

use super::chart::{self, Chart, Step};
use super::nearness::marks_of;
use super::refusal::{long_enough, Input, Refusal};
use std::collections::BTreeSet;

#[derive(Clone, Copy, PartialEq, Eq, Debug)]
pub struct Comparison {
    pub written: u64,
    pub rounds: u64,
}

/// The list fills the start of the buffer.
pub fn compare(first: &[u8], second: &[u8], buffer: &mut [u8]) -> Result<Comparison, Refusal> {
    let first = chart::read(first)?;
    let second = chart::read(second).map_err(|refusal| Refusal { input: Input::Second, ..refusal })?;
    fit_together(&first, &second)?;
    let (marks, rounds) = marks_of(&side_by_side(&first, &second))?;
    let list = list(&marks, first.states(), second.states());
    long_enough(buffer, list.len())?;
    buffer[..list.len()].copy_from_slice(&list);
    Ok(Comparison { written: list.len() as u64, rounds })
}

/// 18 states above 64 together, 19 distinct action codes above 32, 20 transitions above 1,024 together.
fn fit_together(first: &Chart, second: &Chart) -> Result<(), Refusal> {
    let codes: BTreeSet<u8> = first.codes.iter().chain(&second.codes).copied().collect();
    for (number, together, most, what) in [
        (18, first.states() + second.states(), 64, "states together"),
        (19, codes.len(), 32, "action codes together"),
        (20, first.steps.len() + second.steps.len(), 1024, "transitions together"),
    ] {
        if together > most {
            return Err(Refusal { input: Input::BufferOrName, number, place: 0, byte: 0, what });
        }
    }
    Ok(())
}

/// The steps of each state, the second's states numbered after the first's. Each bears its action's code, by which it is matched.
fn side_by_side(first: &Chart, second: &Chart) -> Vec<Vec<Step>> {
    let moved = |chart: &Chart, by: usize| {
        let to = |s: u8| s + by as u8;
        let step = |s: Step| Step { source: to(s.source), action: chart.codes[s.action as usize], target: to(s.target) };
        chart.steps_by_source().into_iter().map(|steps| steps.into_iter().map(step).collect()).collect()
    };
    let both: [Vec<Vec<Step>>; 2] = [moved(first, 0), moved(second, first.states())];
    both.concat()
}

/// The mark of the start states, then every state of the first with no bisimilar state in the second, then the reverse.
fn list(marks: &[u8], n1: usize, n2: usize) -> Vec<u8> {
    let n = n1 + n2;
    let bisimilar = |p: usize, q: usize| marks[p * n + q] == 0;
    let alone_in_first = (0..n1).filter(|&p| !(n1..n).any(|q| bisimilar(p, q)));
    let alone_in_second = (n1..n).filter(|&q| !(0..n1).any(|p| bisimilar(q, p))).map(|q| q - n1);
    let mut out = vec![marks[n1]];
    for states in [alone_in_first.collect::<Vec<_>>(), alone_in_second.collect()] {
        out.push(states.len() as u8);
        out.extend(states.iter().map(|&s| s as u8));
    }
    out
}
