//! Short forms before T-06 and after it: names 0 and 2 wrote kind 0, which was read as greatest, and now write 2. The states that satisfy
//! what they write are those that did; and of a sheet that was stored before, both solutions still have them.

use super::super::boards::{with_kind, NAMES};
use crate::checker::Checker;
use crate::inputs::charts;
use crate::inputs::sheets::{self, Leaves};
use crate::reference::chart::Chart;
use crate::reference::property::solved;
use crate::reference::sheet::{self, Solution};
use crate::reference::short_form::table;
use crate::Job;

/// The kinds that names 0 to 3 wrote, and those that they write.
const BEFORE: [u8; 4] = [0, 1, 0, 1];
const NOW: [u8; 4] = [2, 1, 2, 1];

/// As kinds were read.
fn read_before(kind: u8) -> Solution {
    match kind {
        1 => Solution::Least,
        _ => Solution::Greatest,
    }
}

/// What satisfied the sheet that a name wrote: word, count and rounds.
fn before(chart: &Chart, f: &[u8], name: u64) -> [u64; 3] {
    let f = sheet::read(f, chart.actions()).expect("a sheet of ours").formula;
    let (_, formula) = table(name, f).expect("a name");
    let was = solved(chart, &formula, read_before(BEFORE[name as usize])).expect("a solution");
    [was.word, was.count, was.rounds]
}

fn same_as_before(c: &mut Checker, chart: &Chart, f: &[u8], name: u64) {
    let bytes = chart.bytes();
    let told = c.short_form(&bytes, f, name, 402);
    let written = told.buffer[..(told.numbers[0] as usize).min(402)].to_vec();
    let i = name as usize;
    c.expect(told.code == 0 && written[1] == NOW[i], || format!("short form {name} of {f:?}: {written:?}"));
    let before = before(chart, f, name);
    let now = c.property(&bytes, &written).halves()[0];
    // as it was stored before
    let stored = with_kind(&written, BEFORE[i]);
    let [least, greatest] = c.both_solutions(&bytes, &stored).halves();
    let chosen = if read_before(BEFORE[i]) == Solution::Least { least } else { greatest };
    let stored = c.property(&bytes, &stored).halves()[0];
    c.expect(now == before && chosen == before && stored == least, || {
        format!(
            "{chart:?}\n  short form {name} of {f:?}: {now:?}, before {before:?}, stored {stored:?}, {least:?}, {greatest:?}"
        )
    });
}

fn drawn(c: &mut Checker, times: usize, states: usize, most: usize) {
    for _ in 0..times {
        let chart = charts::any(&mut c.random, states);
        for (name, limit) in NAMES {
            let nodes = c.random.within(1, most.min(limit));
            let f = sheets::drawn(&mut c.random, nodes, chart.actions(), Leaves::WithoutVariable);
            same_as_before(c, &chart, &f, name);
        }
    }
}

pub fn jobs() -> Vec<Job> {
    let mut jobs = Vec::new();
    for _ in 0..4 {
        jobs.push(Job { name: "both: forms before, large", run: Box::new(|c| drawn(c, 20, 64, 197)) });
        jobs.push(Job { name: "both: forms before, small", run: Box::new(|c| drawn(c, 1_000, 8, 8)) });
    }
    jobs
}
