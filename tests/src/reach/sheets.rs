//! What must be reached by sheets: every length around 512 with every refusal, every number of bytes left over and of nodes that remain,
//! and operators nested as deep as can be.

use super::steps::solved;
use super::{Asked, Row};
use crate::archive::Question::{BothSolutions, Property, ShortForm};
use crate::outcome::Outcome;

pub const ROWS: &[Row] = &[
    ("operators nested in left operands", |o| solved(o).then(|| nested_left(o))?, 0..=99),
    ("operators nested in right operands", |o| solved(o).then(|| nested_right(o))?, 0..=99),
];

/// Of a refused sheet, and of every question that has one.
pub const REFUSED: &[Row] = &[
    ("8, bytes of the sheet", |o| long(o, 8), 403..=530),
    ("9, bytes of the sheet", |o| long(o, 9), 403..=530),
    ("10, bytes of the sheet", |o| long(o, 10), 403..=530),
    ("11, bytes of the sheet", |o| long(o, 11), 403..=530),
    ("12, bytes of the sheet", |o| long(o, 12), 403..=530),
    ("13, bytes of the sheet", |o| long(o, 13), 403..=530),
    ("8, bytes left over", |o| o.refuses(8).then(|| (o.left.sheet.len() - o.place()) as u64), 1..=520),
    ("13, nodes that remain", |o| o.refuses(13).then(|| remaining(o))?, 1..=199),
];

pub const EVERY_QUESTION: &[Option<Asked>] = &[Some((Property, 1)), Some((ShortForm, 1)), Some((BothSolutions, 1))];

/// The length of a refused sheet.
fn long(o: &Outcome, number: u64) -> Option<u64> {
    o.refuses(number).then(|| o.left.sheet.len() as u64)
}

/// The formula at a place of a sheet: the place after it, and how many nodes it has.
fn formula(sheet: &[u8], at: usize) -> Option<(usize, usize)> {
    match sheet.get(at)? {
        0..=2 => Some((at + 1, 1)),
        3 | 4 => {
            let (between, f) = formula(sheet, at + 1)?;
            let (after, g) = formula(sheet, between)?;
            Some((after, 1 + f + g))
        }
        5 | 6 => formula(sheet, at + 2).map(|(after, f)| (after, 1 + f)),
        _ => None,
    }
}

/// The nodes that remain after a formula that is complete.
pub fn remaining(o: &Outcome) -> Option<u64> {
    let (after, nodes) = formula(o.left.sheet.part(), 3)?;
    (after == o.place()).then(|| o.nodes().checked_sub(nodes))?.map(|count| count as u64)
}

/// How many operators of two operands stand one in the other, each the left operand, from the first that there is.
pub fn nested_left(o: &Outcome) -> Option<u64> {
    let sheet = o.left.sheet.part();
    let (mut at, mut count) = (3, 0);
    while *sheet.get(at)? > 2 {
        let two = sheet[at] < 5;
        count += two as u64;
        at += if two { 1 } else { 2 };
    }
    Some(count)
}

/// The same, each the right operand.
pub fn nested_right(o: &Outcome) -> Option<u64> {
    let sheet = o.left.sheet.part();
    let (mut at, mut count) = (3, 0);
    while *sheet.get(at)? > 2 {
        if sheet[at] < 5 {
            count += 1;
            (at, _) = formula(sheet, at + 1)?;
        } else {
            at += 2;
        }
    }
    Some(count)
}
