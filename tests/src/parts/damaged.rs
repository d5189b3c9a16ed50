//! Damaged inputs: cut at every length, every byte changed, bytes added, counts off by one, and several faults at once.

use super::boards::{E, E_SHEET, L, L_OR};
use super::order::GOOD;
use crate::checker::{cut, Checker, Lent};
use crate::inputs::{charts, damage, sheets};
use crate::Job;

/// Every question about a chart, in the comparison as the first and as the second.
fn every_question<'a>(c: &mut Checker, chart: impl Into<Lent<'a>>, sheet: &[u8]) {
    let chart = chart.into();
    c.all(chart, sheet);
    c.beside(chart, &E);
    c.why(chart, &[0, 1, 0, 0, 0]);
}

/// A chart: every cut, and at every byte `values` and its neighbours, a byte added and one taken away.
fn whole_chart(c: &mut Checker, chart: &[u8], values: &[u8]) {
    for length in 0..chart.len() {
        every_question(c, cut(chart, length), &E_SHEET);
    }
    for at in 0..chart.len() {
        let mut changed = chart.to_vec();
        for &value in [chart[at].wrapping_add(1), chart[at].wrapping_sub(1)].iter().chain(values) {
            changed[at] = value;
            every_question(c, &changed, &E_SHEET);
        }
        let mut longer = chart.to_vec();
        longer.insert(at, c.random.byte());
        every_question(c, &longer, &E_SHEET);
        let mut shorter = chart.to_vec();
        shorter.remove(at);
        every_question(c, &shorter, &E_SHEET);
    }
    for more in [1, 2, 3, 300, 70_000] {
        let mut longer = chart.to_vec();
        longer.resize(chart.len() + more, 1);
        every_question(c, &longer, &E_SHEET);
    }
}

/// The same for a sheet.
fn whole_sheet(c: &mut Checker, chart: &[u8], sheet: &[u8], values: &[u8]) {
    for length in 0..sheet.len() {
        c.sheets(chart, cut(sheet, length));
    }
    for at in 0..sheet.len() {
        let mut changed = sheet.to_vec();
        for &value in [sheet[at].wrapping_add(1), sheet[at].wrapping_sub(1)].iter().chain(values) {
            changed[at] = value;
            c.sheets(chart, &changed);
        }
        let mut longer = sheet.to_vec();
        longer.insert(at, c.random.byte());
        c.sheets(chart, &longer);
        let mut shorter = sheet.to_vec();
        shorter.remove(at);
        c.sheets(chart, &shorter);
    }
    for more in [1, 2, 3, 300, 70_000] {
        let mut longer = sheet.to_vec();
        longer.resize(sheet.len() + more, 1);
        c.sheets(chart, &longer);
    }
}

fn every_value() -> Vec<u8> {
    (0..=255).collect()
}

/// The longest chart: every byte before its triples 255, and its counts off by one.
fn longest_chart(c: &mut Checker) {
    let chart = charts::longest(&mut c.random).bytes();
    let sheet = sheets::drawn(&mut c.random, 5, 32, sheets::Leaves::WithoutVariable);
    let counts = damage::chart_counts(&chart);
    let whole = (0..=counts[3]).map(|at| (at, 255));
    let off = counts.iter().flat_map(|&at| [(at, chart[at].wrapping_add(1)), (at, chart[at].wrapping_sub(1))]);
    for (at, value) in whole.chain(off) {
        let mut changed = chart.clone();
        changed[at] = value;
        every_question(c, &changed, &sheet);
    }
}

/// Every two bytes changed at once.
fn two_faults<T>(bytes: &[u8], values: &[u8], mut each: impl FnMut(&[u8]) -> T) {
    let mut changed = bytes.to_vec();
    for i in 0..bytes.len() {
        for j in 0..i {
            for &first in values {
                for &second in values {
                    (changed[j], changed[i]) = (first, second);
                    each(&changed);
                }
            }
            changed[j] = bytes[j];
        }
        changed[i] = bytes[i];
    }
}

/// Charts of any shape with one to three faults, some of them in the sheet.
fn several(c: &mut Checker, times: usize) {
    for _ in 0..times {
        let good = charts::any(&mut c.random, 6);
        let good_sheet = sheets::any(&mut c.random, 12, good.actions());
        let mut chart = good.bytes();
        let counts = damage::chart_counts(&chart);
        if c.random.once_in(2) {
            chart = damage::triples(&mut c.random, &chart);
        }
        for _ in 0..c.random.below(3) {
            chart = damage::any(&mut c.random, &chart, &counts);
        }
        c.relations(&chart);
        let mut sheet = good_sheet;
        for _ in 0..c.random.below(3) {
            sheet = damage::any(&mut c.random, &sheet, &damage::sheet_counts());
        }
        // mostly with a good chart, so that the sheet is read
        if c.random.once_in(8) {
            c.sheets(&chart, &sheet);
        } else {
            c.sheets(&good.bytes(), &sheet);
        }
    }
}

pub fn jobs() -> Vec<Job> {
    let mut jobs = vec![
        Job { name: "damaged: the longest chart", run: Box::new(longest_chart) },
        Job {
            name: "damaged: two faults in a chart",
            run: Box::new(|c| two_faults(&GOOD, &[0, 1, 2, 3, 33, 65, 255], |chart| every_question(c, chart, &L_OR))),
        },
        Job {
            name: "damaged: two faults in a sheet",
            run: Box::new(|c| two_faults(&E_SHEET, &[0, 1, 2, 3, 5, 7, 11, 255], |sheet| c.sheets(&E, sheet))),
        },
        Job { name: "damaged: E", run: Box::new(|c| whole_chart(c, &E, &every_value())) },
        Job { name: "damaged: L", run: Box::new(|c| whole_chart(c, &L, &every_value())) },
        Job { name: "damaged: E's sheet", run: Box::new(|c| whole_sheet(c, &E, &E_SHEET, &every_value())) },
        Job { name: "damaged: L's sheet", run: Box::new(|c| whole_sheet(c, &L, &L_OR, &every_value())) },
        Job {
            name: "damaged: the longest sheet",
            run: Box::new(|c| {
                let sheet = sheets::longest(&mut c.random, 3);
                whole_sheet(c, &E, &sheet, &[0, 1, 2, 3, 7, 255]);
            }),
        },
    ];
    for _ in 0..10 {
        jobs.push(Job { name: "damaged: several faults", run: Box::new(|c| several(c, 3_000)) });
        jobs.push(Job {
            name: "damaged: drawn charts",
            run: Box::new(|c| {
                let chart = charts::any(&mut c.random, 8);
                let sheet = sheets::any(&mut c.random, 30, chart.actions());
                whole_chart(c, &chart.bytes(), &[0, 1, 32, 33, 64, 65, 255]);
                whole_sheet(c, &chart.bytes(), &sheet, &[0, 1, 2, 3, 4, 5, 6, 7, 255]);
            }),
        });
    }
    jobs
}
