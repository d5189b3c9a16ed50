//! Two charts side by side: document 02, T-01.

mod boards;
mod damaged;
mod definitions;
mod limits;
mod lists;
mod order;
mod valid;

use crate::checker::{Checker, Told};
use crate::reference::chart::Chart;
use crate::Job;

/// Answered in a buffer that is just long enough or longer, and refused in one that is a byte shorter.
fn answered(c: &mut Checker, [first, second]: &[Chart; 2]) -> Told {
    let (first, second) = (first.bytes(), second.bytes());
    let more = c.random.below(2) * c.too_long();
    let told = c.compare(&first, &second, 67 + more);
    c.expect_answered("two good charts", &told);
    if told.code == 0 {
        let length = told.numbers[0] as usize;
        let exact = c.compare(&first, &second, length);
        c.expect(exact.code == 0 && exact.buffer == told.buffer[..length], || format!("just long enough: {:?}", exact.buffer));
        let short = c.compare(&first, &second, length - 1);
        c.expect_refused("a byte too short", &short, (2, 14, 0, 0));
    }
    told
}

/// The list, written, and the rounds.
fn expect_list(c: &mut Checker, what: &str, told: &Told, rounds: usize, list: &[u8]) {
    let fine = told.code == 0 && told.numbers[..2] == [list.len() as u64, rounds as u64] && told.buffer.starts_with(list);
    c.expect(fine, || {
        let is = &told.buffer[..told.buffer.len().min(67)];
        format!("{what}: refused {:?}, numbers {:?}, list {is:?}\n  expected {list:?}", told.refusal(), &told.numbers[..2])
    });
}

/// The list of these states, after the mark of the start states.
fn list(mark: usize, alone: &[Vec<usize>; 2]) -> Vec<u8> {
    let mut out = vec![mark as u8];
    for states in alone {
        out.push(states.len() as u8);
        out.extend(states.iter().map(|&s| s as u8));
    }
    out
}

pub fn jobs() -> Vec<Job> {
    [limits::jobs(), lists::jobs(), valid::jobs(), damaged::jobs(), definitions::jobs(), order::jobs(), boards::jobs()]
        .into_iter()
        .flatten()
        .collect()
}
