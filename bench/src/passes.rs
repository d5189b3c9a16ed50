//! A property in Rust that makes no table of the steps: a pass over the triples for every diamond and box. Where a chart is small, it
//! shows what the table costs.

use crate::read;
use crate::same_shape::triples;

/// One pass over the triples.
fn diamond(triples: &[[u8; 3]], action: u8, f: u64) -> u64 {
    let mut w = 0;
    for &[source, b, target] in triples {
        if (action == 255 || b == action) && f >> target & 1 == 1 {
            w |= 1 << source;
        }
    }
    w
}

/// The word of the formula at a place and the place after it. It was read there, so no byte is judged again.
fn evaluate(triples: &[[u8; 3]], all: u64, sheet: &[u8], at: usize, set: u64) -> (u64, usize) {
    match sheet[at] {
        0 => (set, at + 1),
        1 => (all, at + 1),
        2 => (0, at + 1),
        node @ (3 | 4) => {
            let (f, between) = evaluate(triples, all, sheet, at + 1, set);
            let (g, after) = evaluate(triples, all, sheet, between, set);
            (if node == 3 { f & g } else { f | g }, after)
        }
        node => {
            let action = sheet[at + 1];
            let (f, after) = evaluate(triples, all, sheet, at + 2, set);
            (if node == 5 { diamond(triples, action, f) } else { all & !diamond(triples, action, all & !f) }, after)
        }
    }
}

/// The word, the number of states in it and the rounds.
#[inline(never)]
pub fn property(chart: &[u8], sheet: &[u8]) -> Option<(u64, u64, u64)> {
    let shape = read::chart(chart)?;
    let kind = read::sheet(sheet, shape.m)?;
    let triples = triples(chart, shape);
    let mut set = read::first_set(kind, shape.n);
    let mut rounds = 0;
    loop {
        let (next, _) = evaluate(triples, read::all(shape.n), sheet, 3, set);
        if next == set {
            return Some((set, set.count_ones() as u64, rounds));
        }
        set = next;
        rounds += 1;
    }
}
