//! Competing faults: the chart's before 14 and before the list's; of the list's, the first line's.

use super::super::boards::E;
use super::super::order::faulty;
use super::expect_bad;
use crate::checker::Checker;
use crate::inputs::lists::own;
use crate::reference::chart;
use crate::Job;

/// A faulty chart with no room and much, and with lists that are good for E, bad and incomplete.
fn charts(c: &mut Checker) {
    let good = own(&chart::read(&E).unwrap()).concat();
    for (what, faulty, [number, place, byte]) in faulty() {
        for buffer in [0, 1, 20_160] {
            let told = c.reasons(&faulty, buffer);
            c.expect_refused(what, &told, (0, number, place, byte));
        }
        for list in [[].as_slice(), &good, &[9; 5], &[0], &[255; 300]] {
            let told = c.check_reasons(&faulty, list);
            c.expect_refused(what, &told, (0, number, place, byte));
        }
    }
}

/// A good list with the line of this number spoiled, in each way; or cut within it.
fn faults(lines: &[[u8; 5]], at: usize) -> Vec<Vec<u8>> {
    let with = |byte: usize, value: u8| {
        let mut out = lines.to_vec();
        out[at][byte] = value;
        out.concat()
    };
    let mut twice = lines.to_vec();
    twice[at] = lines[0];
    let cut = |bytes: usize| lines.as_flattened()[..5 * at + bytes].to_vec();
    let mut out = vec![with(0, 6), with(1, 255), with(2, 2), with(3, 3), with(4, 9), cut(1), cut(4)];
    if at > 0 {
        out.push(twice.concat());
    }
    out
}

/// Two faults in E's list, or three: the first line that has one is told, whatever comes after, an incomplete end too.
fn first_of_two(c: &mut Checker) {
    let lines = own(&chart::read(&E).unwrap());
    for first in 0..lines.len() {
        for later in first..lines.len() {
            for spoiled in faults(&lines, later) {
                let spoiled_lines = spoiled.as_chunks::<5>().0;
                if first >= spoiled_lines.len() {
                    continue;
                }
                for (byte, value) in [(0, 6), (2, 9), (4, 9)] {
                    let mut both = spoiled.clone();
                    both[5 * first + byte] = value;
                    let told = c.check_reasons(&E, &both);
                    expect_bad(c, "the first of two", &told, first);
                }
            }
        }
    }
    for at in 0..lines.len() {
        for spoiled in faults(&lines, at) {
            let told = c.check_reasons(&E, &spoiled);
            expect_bad(c, "one fault", &told, at);
        }
    }
}

pub fn jobs() -> Vec<Job> {
    vec![
        Job { name: "reasons: order", run: Box::new(charts) },
        Job { name: "reasons: the first of two", run: Box::new(first_of_two) },
    ]
}
