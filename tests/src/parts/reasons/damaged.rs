//! Damaged lists: cut at every length, every byte changed, lines and bytes added, and bytes of any kind.

use super::super::boards::{E, L};
use crate::checker::{cut, Checker};
use crate::inputs::charts;
use crate::inputs::lists::{own, LONGEST};
use crate::reference::chart;
use crate::Job;

/// A list: every cut, and at every byte `values` and its neighbours, a byte added and one taken away; twice, and with more after.
fn whole_list(c: &mut Checker, chart: &[u8], list: &[u8], values: &[u8]) {
    for length in 0..=list.len() {
        c.check_reasons(chart, cut(list, length));
    }
    for at in 0..list.len() {
        let mut changed = list.to_vec();
        for &value in [list[at].wrapping_add(1), list[at].wrapping_sub(1)].iter().chain(values) {
            changed[at] = value;
            c.check_reasons(chart, &changed);
        }
        let mut longer = list.to_vec();
        longer.insert(at, c.random.byte());
        c.check_reasons(chart, &longer);
        let mut shorter = list.to_vec();
        shorter.remove(at);
        c.check_reasons(chart, &shorter);
    }
    c.check_reasons(chart, &[list, list].concat());
    for more in [1, 2, 3, 4, 5, 300, 70_000] {
        let mut longer = list.to_vec();
        longer.resize(list.len() + more, 1);
        c.check_reasons(chart, &longer);
    }
}

/// Our own list of a chart, where each line is left out, said again, or exchanged with each other.
fn whole_lines(c: &mut Checker, chart: &[u8]) {
    let lines = own(&chart::read(chart).unwrap());
    for i in 0..lines.len() {
        let mut fewer = lines.clone();
        let line = fewer.remove(i);
        c.check_reasons(chart, fewer.as_flattened());
        for j in 0..lines.len() {
            let mut again = lines.clone();
            again.insert(j, line);
            c.check_reasons(chart, again.as_flattened());
            let mut moved = fewer.clone();
            moved.insert(j, line);
            c.check_reasons(chart, moved.as_flattened());
            let mut exchanged = lines.clone();
            exchanged.swap(i, j);
            c.check_reasons(chart, exchanged.as_flattened());
        }
    }
}

fn of(chart: &[u8]) -> Vec<u8> {
    own(&chart::read(chart).unwrap()).concat()
}

/// Bytes of any kind, many of them small, as a list for a chart of any kind.
fn any_bytes(c: &mut Checker, times: usize) {
    for _ in 0..times {
        let chart = charts::any(&mut c.random, 5).bytes();
        let (length, below) = (c.random.below(30), [2, 3, 6, 256][c.random.below(4)]);
        let list: Vec<u8> = (0..length).map(|_| c.random.below(below) as u8).collect();
        c.check_reasons(&chart, &list);
    }
}

/// The longest list: cut within its last lines, and a byte of some lines changed.
fn longest(c: &mut Checker) {
    let chart = charts::ring(&mut c.random, 64);
    let (bytes, list) = (chart.bytes(), own(&chart).concat());
    for length in LONGEST - 50..LONGEST {
        c.check_reasons(&bytes, cut(&list, length));
    }
    for at in (0..LONGEST).step_by(23).chain(LONGEST - 50..LONGEST) {
        let mut changed = list.clone();
        changed[at] = [changed[at] + 1, c.random.byte()][c.random.below(2)];
        c.check_reasons(&bytes, &changed);
    }
}

pub fn jobs() -> Vec<Job> {
    let every: Vec<u8> = (0..=255).collect();
    let again = every.clone();
    let mut jobs = vec![
        Job { name: "reasons: the longest list damaged", run: Box::new(longest) },
        Job { name: "reasons: E's list damaged", run: Box::new(move |c| whole_list(c, &E, &of(&E), &every)) },
        Job { name: "reasons: L's list damaged", run: Box::new(move |c| whole_list(c, &L, &of(&L), &again)) },
        Job { name: "reasons: E's lines damaged", run: Box::new(|c| whole_lines(c, &E)) },
        Job { name: "reasons: L's lines damaged", run: Box::new(|c| whole_lines(c, &L)) },
    ];
    for _ in 0..8 {
        jobs.push(Job { name: "reasons: any bytes", run: Box::new(|c| any_bytes(c, 2_000)) });
        jobs.push(Job {
            name: "reasons: drawn lists damaged",
            run: Box::new(|c| {
                let n = c.random.within(4, 6);
                let chart = charts::ring(&mut c.random, n).bytes();
                whole_list(c, &chart, &of(&chart), &[0, 1, 2, 3, 4, 255]);
                whole_lines(c, &chart);
            }),
        });
    }
    jobs
}
