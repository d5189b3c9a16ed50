//! What the short forms mean, by search on the chart's graph: the sheet that is written, asked as a property; and what name 3 meant before
//! T-05, on charts that rest and on charts that do not.

use crate::checker::Checker;
use crate::inputs::charts;
use crate::inputs::sheets::{self, Leaves};
use crate::reference::chart::Chart;
use crate::reference::sheet::{self, Action, Formula};
use crate::Job;

/// The states that a step leads to, for each state.
fn successors(chart: &Chart) -> Vec<u64> {
    let mut out = vec![0; chart.states()];
    for s in &chart.steps {
        out[s.source as usize] |= 1u64 << s.target;
    }
    out
}

/// What can be reached from s, s itself included.
fn reachable(successors: &[u64], s: usize) -> u64 {
    let mut seen = 1u64 << s;
    let mut left = vec![s];
    while let Some(p) = left.pop() {
        for q in 0..successors.len() {
            if successors[p] >> q & 1 == 1 && seen >> q & 1 == 0 {
                seen |= 1 << q;
                left.push(q);
            }
        }
    }
    seen
}

/// The states of `within` from which some path stays within and either never ends or, where `resting`, ends at rest.
fn can_stay(successors: &[u64], within: u64, resting: bool) -> u64 {
    let mut stay = within;
    loop {
        let dead = (0..successors.len())
            .filter(|&s| stay >> s & 1 == 1)
            .filter(|&s| successors[s] & stay == 0 && !(resting && successors[s] == 0))
            .fold(0, |so_far, s| so_far | 1u64 << s);
        if dead == 0 {
            return stay;
        }
        stay &= !dead;
    }
}

fn all_states(chart: &Chart) -> u64 {
    u64::MAX >> (64 - chart.states())
}

fn meant(chart: &Chart, name: u64, f: u64) -> u64 {
    let after = successors(chart);
    let n = chart.states();
    let all = all_states(chart);
    let where_ = |holds: &dyn Fn(usize) -> bool| (0..n).filter(|&s| holds(s)).fold(0, |so_far, s| so_far | 1u64 << s);
    match name {
        // every state that can be reached satisfies F; some state does
        0 => where_(&|s| reachable(&after, s) & !f == 0),
        1 => where_(&|s| reachable(&after, s) & f != 0),
        // some complete path, infinite or ending at rest, has F all along
        2 => can_stay(&after, f, true),
        // no complete path avoids F, neither one that goes on for ever nor one that ends at rest
        _ => all & !can_stay(&after, all & !f, true),
    }
}

fn forms(c: &mut Checker, times: usize, states: usize) {
    for _ in 0..times {
        let chart = charts::any(&mut c.random, states);
        let nodes = c.random.within(1, 6);
        let f = sheets::drawn(&mut c.random, nodes, chart.actions(), Leaves::WithoutVariable);
        let bytes = chart.bytes();
        let where_f = c.property(&bytes, &f).numbers[0];
        for name in 0..4 {
            let told = c.short_form(&bytes, &f, name, 402);
            let written = told.buffer[..(told.numbers[0] as usize).min(402)].to_vec();
            let told = c.property(&bytes, &written);
            let meant = meant(&chart, name, where_f);
            c.expect(told.code == 0 && told.numbers[0] == meant, || {
                format!("{chart:?}\n  short form {name} of {f:?}: word {}, meant {meant}", told.numbers[0])
            });
        }
    }
}

/// The states from which a state at rest is reached, none on the way satisfying F, nor that one.
fn rest_before(successors: &[u64], without: u64) -> u64 {
    let mut so_far = 0;
    loop {
        let more = (0..successors.len())
            .filter(|&s| without >> s & 1 == 1 && (successors[s] == 0 || successors[s] & so_far != 0))
            .fold(so_far, |found, s| found | 1u64 << s);
        if more == so_far {
            return so_far;
        }
        so_far = more;
    }
}

/// A step for every state at rest, where there is an action.
fn without_rest(c: &mut Checker, chart: &Chart) -> Chart {
    let n = chart.states();
    let mut steps: Vec<_> = chart.steps.iter().map(|s| (s.source as usize, s.action as usize, s.target as usize)).collect();
    for (s, after) in successors(chart).into_iter().enumerate() {
        if after == 0 && chart.actions() > 0 && steps.len() < 1024 {
            steps.push((s, 0, c.random.below(n)));
        }
    }
    charts::chart(&mut c.random, n, chart.actions(), steps)
}

/// Name 3 as it is and as it was before T-05, or F, box 255 X, least: the new set lies in the old one; of that, the states are gone from
/// which a state at rest is reached without F; and where no state rests nothing is.
fn rest(c: &mut Checker, times: usize, states: usize) {
    for _ in 0..times {
        let drawn = charts::any(&mut c.random, states);
        for chart in [without_rest(c, &drawn), drawn] {
            let (bytes, after, all) = (chart.bytes(), successors(&chart), all_states(&chart));
            let nodes = c.random.within(1, 6);
            let f = sheets::drawn(&mut c.random, nodes, chart.actions(), Leaves::WithoutVariable);
            let without = all & !c.property(&bytes, &f).numbers[0];
            let told = c.short_form(&bytes, &f, 3, 402);
            let now = c.property(&bytes, &told.buffer[..(told.numbers[0] as usize).min(402)]).numbers[0];
            let boxed = Formula::Box(Action::Every, Box::new(Formula::Variable));
            let f = sheet::read(&f, chart.actions()).expect("a sheet of ours").formula;
            let before = c.property(&bytes, &sheet::bytes(1, &Formula::Or(Box::new(f), Box::new(boxed)))).numbers[0];
            let fine = before == all & !can_stay(&after, without, false)
                && now == before & !rest_before(&after, without)
                && (now == before || after.contains(&0));
            c.expect(fine, || format!("{chart:?}\n  before {before}, now {now}, without F {without}"));
        }
    }
}

pub fn jobs() -> Vec<Job> {
    let mut jobs = Vec::new();
    for _ in 0..4 {
        jobs.push(Job { name: "forms: rest", run: Box::new(|c| rest(c, 1_500, 8)) });
        jobs.push(Job { name: "forms: rest, large", run: Box::new(|c| rest(c, 60, 64)) });
        jobs.push(Job { name: "forms: small", run: Box::new(|c| forms(c, 2_000, 6)) });
        jobs.push(Job { name: "forms: large", run: Box::new(|c| forms(c, 60, 64)) });
    }
    jobs
}
