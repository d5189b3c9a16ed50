//! Sheets that are long, whatever follows what is wrong in them; formulas that end while nodes remain; and operators nested as deep as
//! can be. What must be reached stands in src/reach/sheets.rs.

use super::boards::E;
use super::places::operators;
use super::shared;
use crate::checker::Checker;
use crate::inputs::charts;
use crate::inputs::sheets::{self, Leaves, Side};
use crate::Job;

/// Bytes that follow: of one kind, nodes, or any.
fn following(c: &mut Checker, count: usize) -> Vec<u8> {
    let kind = c.random.below(5);
    (0..count).map(|_| [0, 1, 255, c.random.below(7) as u8, c.random.byte()][kind]).collect()
}

/// What is wrong, the bytes up to there, the number and the place.
type Wrong = (&'static str, Vec<u8>, u64, usize);

/// All questions refuse these sheets so, made so long.
fn refused(c: &mut Checker, (what, start, number, place): Wrong, length: usize) {
    for _ in 0..3 {
        let sheet = [start.as_slice(), &following(c, length - start.len())].concat();
        let told = c.sheets(&E, &sheet);
        told.iter().for_each(|told| c.expect_refused(what, told, (1, number, place as u64, 0)));
    }
}

/// A good sheet of some length.
fn good(c: &mut Checker) -> Vec<u8> {
    let length = 4 + 2 * c.random.below(200);
    sheets::of_length(&mut c.random, length, 3)
}

/// Each fault that a sheet can have, somewhere or as late as can be, and what comes before it.
fn faults(c: &mut Checker) -> Vec<Wrong> {
    let mut out = vec![
        ("an equation count", vec![[0, 2, 255][c.random.below(3)]], 9, 0),
        ("a kind", vec![1, c.random.within(3, 255) as u8], 9, 1),
        ("a node count", vec![1, 0, [0, 201, 255][c.random.below(3)]], 10, 2),
    ];
    for sheet in [good(c), sheets::longest(&mut c.random, 3)] {
        let end = sheet.len();
        out.push(("bytes left over", sheet, 8, end));
    }
    for place in [c.random.within(3, 401), 401] {
        let before = operators(c, place);
        let with = |more: [u8; 2]| [&[1, 0, 200], before.as_slice(), &more].concat();
        out.push(("no such node", with([c.random.within(7, 255) as u8, 0]), 11, place));
        out.push(("no such action", with([c.random.within(5, 6) as u8, c.random.within(3, 254) as u8]), 12, place + 1));
    }
    for nodes in [c.random.within(1, 200), 200] {
        let end = 2 * nodes + 3;
        out.push(("nodes used up", [&[1, 0, nodes as u8], operators(c, end).as_slice()].concat(), 13, end));
    }
    out
}

/// Sheets of this length with each of their faults.
fn long(c: &mut Checker, length: usize) {
    for wrong in faults(c) {
        refused(c, wrong, length);
    }
}

/// So many bytes after a good sheet.
fn left_over(c: &mut Checker, count: usize) {
    let sheet = good(c);
    let end = sheet.len();
    refused(c, ("bytes left over", sheet, 8, end), end + count);
}

/// A formula that is complete while so many nodes remain: as small as can be, as large as can be, and between.
fn remaining(c: &mut Checker, count: usize) {
    for nodes in [1, 200 - count, c.random.within(1, 200 - count)] {
        for leaves in [Leaves::WithVariable, Leaves::WithoutVariable] {
            let mut sheet = sheets::drawn(&mut c.random, nodes, 3, leaves);
            sheet[2] = (nodes + count) as u8;
            let end = sheet.len();
            let more = c.random.below(2) * c.random.below(600);
            refused(c, ("nodes remain", sheet, 13, end), end + more);
        }
    }
}

/// Operators nested so deep, left, right and in turn.
fn nested(c: &mut Checker, depth: usize) {
    for side in [Side::Left, Side::Right, Side::InTurn] {
        for leaves in [Leaves::WithVariable, Leaves::WithoutVariable] {
            let chart = charts::any(&mut c.random, 12);
            let sheet = sheets::comb(&mut c.random, depth, side, chart.actions(), leaves);
            let [property, _, both] = c.sheets(&chart.bytes(), &sheet);
            [property, both].iter().for_each(|told| c.expect_answered("operators nested", told));
        }
    }
}

pub fn jobs() -> Vec<Job> {
    // as many as a length that is cut to two bytes would hide
    let hidden = |c: &mut Checker| [1_024, 65_536, 66_048].into_iter().for_each(|count| left_over(c, count));
    let mut jobs = vec![Job { name: "reader: very many bytes left over", run: Box::new(hidden) }];
    jobs.extend(shared([
        ("reader: long sheets", 403..=530, long),
        ("reader: bytes left over", 1..=520, left_over),
        ("reader: nodes that remain", 1..=199, remaining),
        ("reader: operators nested", 1..=99, nested),
    ]));
    jobs
}
