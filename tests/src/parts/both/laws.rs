//! The laws, beside the archive's other answers: both solutions are the properties of the same bytes with kinds 1 and 2, whatever the kind
//! byte says; kind 0 is read as 1; the least lies inside the greatest, and the rounds of the two and the states between are at most as
//! many as there are states; and of the opposite formula they are the opposites, in as many rounds.

use super::super::boards::with_kind;
use crate::checker::Checker;
use crate::inputs::{charts, sheets};
use crate::reference::chart::Chart;
use crate::Job;

/// The formula that holds of a set where this one does not hold of its opposite: true for false, and for or, diamond for box.
fn opposite(sheet: &[u8]) -> Vec<u8> {
    let mut out = sheet.to_vec();
    let mut at = 3;
    while at < out.len() {
        out[at] = [0, 2, 1, 4, 3, 6, 5][sheet[at] as usize];
        // an action byte stays
        at += if sheet[at] > 4 { 2 } else { 1 };
    }
    out
}

/// The least lies inside the greatest, with no state that the chart has not. Each round adds a state to the least or takes one from the
/// greatest.
fn bounds(c: &mut Checker, chart: &Chart, halves: [[u64; 3]; 2]) {
    let [[least, of_least, up], [greatest, of_greatest, down]] = halves;
    let n = chart.states();
    let fine = least & !greatest == 0
        && greatest & !(u64::MAX >> (64 - n)) == 0
        && [of_least, of_greatest] == [least, greatest].map(|word| word.count_ones() as u64)
        && up + down + (of_greatest - of_least) <= n as u64;
    c.expect(fine, || format!("{chart:?}\n  both {halves:?}"));
}

fn laws(c: &mut Checker, chart: &Chart, sheet: &[u8]) {
    let bytes = chart.bytes();
    let [unsaid, least, greatest] = [0, 1, 2].map(|kind| c.property(&bytes, &with_kind(sheet, kind)).halves()[0]);
    c.expect(unsaid == least, || format!("{chart:?} {sheet:?}\n  unsaid {unsaid:?}, least {least:?}"));
    for kind in 0..3 {
        let told = c.both_solutions(&bytes, &with_kind(sheet, kind));
        c.expect(told.code == 0 && told.halves() == [least, greatest], || {
            format!("{chart:?} {sheet:?}\n  kind {kind}: {:?}, properties {least:?}, {greatest:?}", told.numbers)
        });
        bounds(c, chart, told.halves());
    }
    let told = c.both_solutions(&bytes, &opposite(sheet));
    let (all, n) = (u64::MAX >> (64 - chart.states()), chart.states() as u64);
    let opposites = [greatest, least].map(|[word, count, rounds]| [all & !word, n - count, rounds]);
    c.expect(told.halves() == opposites, || {
        format!("{chart:?} {sheet:?}\n  of the opposite {:?}, expected {opposites:?}", told.numbers)
    });
}

fn drawn(c: &mut Checker, times: usize, states: usize, nodes: usize) {
    for _ in 0..times {
        let chart = charts::any(&mut c.random, states);
        let sheet = sheets::any(&mut c.random, nodes, chart.actions());
        laws(c, &chart, &sheet);
    }
}

pub fn jobs() -> Vec<Job> {
    let mut jobs = Vec::new();
    for _ in 0..8 {
        jobs.push(Job { name: "both: laws, large", run: Box::new(|c| drawn(c, 30, 64, 100)) });
        jobs.push(Job { name: "both: laws, middling", run: Box::new(|c| drawn(c, 300, 20, 40)) });
        jobs.push(Job { name: "both: laws, small", run: Box::new(|c| drawn(c, 1_200, 7, 12)) });
    }
    jobs
}
