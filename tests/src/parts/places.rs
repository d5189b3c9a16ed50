//! Every refusal of a chart and of a sheet at every place that it can have, for every question, with the place known beforehand.
//! Which places these are stands in src/table.rs.

use super::boards::E;
use crate::checker::{cut, Checker, Lent};
use crate::inputs::{charts, sheets};
use crate::Job;

/// F, for any chart.
const PLAIN: [u8; 4] = [1, 0, 1, 1];

/// All questions refuse the chart with this number, place and byte; as the second of two it is input 3.
fn all_refuse(c: &mut Checker, what: &str, chart: Lent, [number, place, byte]: [u64; 3]) {
    let told = c.all(chart, &PLAIN);
    told.iter().for_each(|told| c.expect_refused(what, told, (0, number, place, byte)));
    let [first, second] = c.beside(chart, &E);
    c.expect_refused(what, &first, (0, number, place, byte));
    c.expect_refused(what, &second, (3, number, place, byte));
    let told = c.why(chart, &[0, 1, 0, 0, 0]);
    told.iter().for_each(|told| c.expect_refused(what, told, (0, number, place, byte)));
}

/// All questions refuse the chart so, at a byte of the file.
pub fn chart_refused<'a>(c: &mut Checker, what: &str, chart: impl Into<Lent<'a>>, number: u64, place: usize) {
    all_refuse(c, what, chart.into(), [number, place as u64, 0]);
}

/// All questions refuse a triple of the chart so, by its number and the byte within it.
pub fn triple_refused(c: &mut Checker, what: &str, chart: &[u8], number: u64, triple: usize, byte: usize) {
    all_refuse(c, what, chart.into(), [number, triple as u64, byte as u64]);
}

/// Property, short form and both solutions refuse the sheet so, for chart E.
fn sheet_refused(c: &mut Checker, what: &str, sheet: &[u8], number: u64, place: usize) {
    let told = c.sheets(&E, sheet);
    told.iter().for_each(|told| c.expect_refused(what, told, (1, number, place as u64, 0)));
}

/// The bytes with others from a place on.
pub fn changed(bytes: &[u8], at: usize, to: &[u8]) -> Vec<u8> {
    let mut out = bytes.to_vec();
    out[at..at + to.len()].copy_from_slice(to);
    out
}

/// n states with every number of actions: what can be wrong before the triples and in the first two.
fn heads(c: &mut Checker, n: usize) {
    chart_refused(c, "33 actions", &charts::counted(n, 33, 0), 3, n + 1);
    chart_refused(c, "255 actions", &changed(&charts::counted(n, 32, 0), n + 1, &[255]), 3, n + 1);
    for m in 0..=32 {
        let first = n + m + 4;
        let with = |t: u16, triples: &[u8]| {
            let head = changed(&charts::counted(n, m, 0), first - 2, &t.to_le_bytes());
            [head.as_slice(), triples].concat()
        };
        chart_refused(c, "1,025 transitions", &with(1025, &[]), 5, first - 2);
        chart_refused(c, "65,535 transitions", &with(65535, &[]), 5, first - 2);
        chart_refused(c, "no transition and a byte", &with(0, &[0]), 8, first);
        chart_refused(c, "a transition and no byte", &with(1, &[]), 1, first);
        triple_refused(c, "source out of range", &with(1, &[n as u8, 0, 0]), 6, 0, 0);
        triple_refused(c, "action out of range", &with(1, &[0, m as u8, 0]), 6, 0, 1);
        if m > 0 {
            let last = [n as u8 - 1, m as u8 - 1, n as u8 - 1];
            triple_refused(c, "target out of range", &with(1, &[0, 0, n as u8]), 6, 0, 2);
            triple_refused(c, "the first triple twice", &with(2, &[0; 6]), 7, 1, 0);
            triple_refused(c, "the last triple twice", &with(2, &[last, last].concat()), 7, 1, 0);
            triple_refused(c, "the last triple first", &with(2, &[last, [0; 3]].concat()), 7, 1, 0);
        }
    }
}

/// n states and 32 actions: every code but the first equal to the one before, just smaller, and 0.
fn codes(c: &mut Checker, n: usize) {
    let good = charts::counted(n, 32, 0);
    for at in n + 3..n + 34 {
        for code in [good[at - 1], good[at - 1] - 1, 0] {
            chart_refused(c, "codes that do not rise", &changed(&good, at, &[code]), 4, at);
        }
    }
}

/// Every byte of 1,024 triples out of range, by one and as far as can be.
fn out_of_range(c: &mut Checker) {
    let good = charts::longest(&mut c.random).bytes();
    for triple in 0..1024 {
        for (byte, limit) in [64, 32, 64].into_iter().enumerate() {
            for value in [limit, 255] {
                triple_refused(c, "out of range", &changed(&good, 100 + 3 * triple + byte, &[value]), 6, triple, byte);
            }
        }
    }
}

/// The same triple, and the greatest that is smaller by its source, by its action and by its target, where there is one. The last
/// action and the last state are these.
pub fn not_greater([s, a, t]: [u8; 3], action: u8, state: u8) -> impl Iterator<Item = [u8; 3]> {
    let smaller = [
        Some([s, a, t]),
        s.checked_sub(1).map(|s| [s, action, state]),
        a.checked_sub(1).map(|a| [s, a, state]),
        t.checked_sub(1).map(|t| [s, a, t]),
    ];
    smaller.into_iter().flatten()
}

/// Each of 1,024 triples one too many, or not greater than the one before. With 62, 63 and 64 states a triple starts at every
/// place.
fn triples(c: &mut Checker, n: usize) {
    let good = charts::drawn(&mut c.random, n, 32, 1024).bytes();
    let (first, top) = (n + 36, n as u8 - 1);
    for triple in 0..1024 {
        let at = first + 3 * triple;
        let fewer = (triple as u16).to_le_bytes();
        chart_refused(c, "a triple left over", &changed(&good, first - 2, &fewer), 8, at);
        if triple == 0 {
            continue;
        }
        let before @ [s, a, t] = [good[at - 3], good[at - 2], good[at - 1]];
        for not_greater in not_greater(before, 31, top) {
            triple_refused(c, "triples that do not rise", &changed(&good, at, &not_greater), 7, triple, 0);
        }
        // not greater, and out of range too: each byte is judged before the order is
        if let Some(s) = s.checked_sub(1) {
            triple_refused(c, "an action out of range too", &changed(&good, at, &[s, 32, t]), 6, triple, 1);
            triple_refused(c, "a target out of range too", &changed(&good, at, &[s, a, top + 1]), 6, triple, 2);
        }
    }
    for more in 1..=50 {
        chart_refused(c, "bytes left over", &[good.as_slice(), &vec![0; more]].concat(), 8, good.len());
    }
}

/// The longest chart, cut at every length and with every wrong number of states.
fn cuts(c: &mut Checker) {
    let good = charts::longest(&mut c.random).bytes();
    for length in 0..good.len() {
        chart_refused(c, "a chart cut", cut(&good, length), 1, length);
    }
    for count in (0..=255).filter(|n| !(1..=64).contains(n)) {
        chart_refused(c, "no state, or too many", &changed(&good, 0, &[count]), 2, 0);
    }
}

/// Operators alone, from byte 3 of a sheet to a place: diamonds and boxes, before them an "and" or "or" where that is an odd
/// number of bytes. So they want one operand, or two.
pub fn operators(c: &mut Checker, place: usize) -> Vec<u8> {
    let mut out = Vec::new();
    if (place - 3) % 2 == 1 {
        out.push(3 + c.random.below(2) as u8);
    }
    while 3 + out.len() < place {
        out.extend([5 + c.random.below(2) as u8, [0, 1, 2, 255][c.random.below(4)]]);
    }
    out
}

/// A sheet whose formula starts with operators up to a place: what can be wrong there, and with a node that stands there.
fn formulas(c: &mut Checker, place: usize) {
    let before = operators(c, place);
    let operators = (place - 2) / 2;
    let sheet = |nodes: usize, after: &[u8]| [&[1, 0, nodes as u8], before.as_slice(), after].concat();
    if operators > 0 {
        for after in [[].as_slice(), &[1], &[9]] {
            sheet_refused(c, "nodes used up", &sheet(operators, after), 13, place);
        }
    }
    if operators == 200 {
        return;
    }
    for nodes in [operators + 1, 200] {
        sheet_refused(c, "a node absent", &sheet(nodes, &[]), 1, place);
        for node in [7, 8, 255] {
            sheet_refused(c, "no such node", &sheet(nodes, &[node]), 11, place);
            sheet_refused(c, "no such node, and more", &sheet(nodes, &[node, 0, 1]), 11, place);
        }
        for node in [5, 6] {
            sheet_refused(c, "an action byte absent", &sheet(nodes, &[node]), 1, place + 1);
            for action in [3, 32, 254] {
                sheet_refused(c, "no such action", &sheet(nodes, &[node, action]), 12, place + 1);
                sheet_refused(c, "no such action, and more", &sheet(nodes, &[node, action, 1]), 12, place + 1);
            }
        }
    }
    complete(c, place, &before);
}

/// The same operators and their operands: a good sheet, also with a variable at the place; one with too much in it.
fn complete(c: &mut Checker, place: usize, before: &[u8]) {
    let operands = 2 - place % 2;
    let nodes = (place - 2) / 2 + operands;
    if nodes > 200 {
        return;
    }
    // every leaf the same, so that a variable at the place is the first
    let sheet = |nodes: usize, leaf: u8, after: &[u8]| [&[1, 0, nodes as u8], before, &[leaf; 2][..operands], after].concat();
    let end = place + operands;
    for (what, leaf) in [("a complete formula", 1), ("a formula with a variable", 0)] {
        let [property, _, both] = c.sheets(&E, &sheet(nodes, leaf, &[]));
        [property, both].iter().for_each(|told| c.expect_answered(what, told));
    }
    for name in [0, 4] {
        let told = c.short_form(&E, &sheet(nodes, 0, &[]), name, 402);
        c.expect_refused("a variable", &told, (1, 16, place as u64, 0));
    }
    for after in [[0].as_slice(), &[9], &[1, 1]] {
        sheet_refused(c, "bytes left over", &sheet(nodes, 2, after), 8, end);
    }
    if nodes == 200 {
        return;
    }
    for more in [nodes + 1, 200] {
        for after in [[].as_slice(), &[0], &[9], &[1, 1]] {
            sheet_refused(c, "nodes remain", &sheet(more, 2, after), 13, end);
        }
    }
}

/// The first three bytes of a sheet: each absent, each with every value that it must not have.
fn sheet_heads(c: &mut Checker) {
    let good = sheets::longest(&mut c.random, 3);
    for length in 0..3 {
        sheet_refused(c, "a sheet cut", &good[..length], 1, length);
    }
    for value in 0..=255 {
        for (at, number, fine) in [(0, 9, 1..=1), (1, 9, 0..=2), (2, 10, 1..=200)] {
            if !fine.contains(&value) {
                sheet_refused(c, "a count or a kind", &changed(&good, at, &[value]), number, at);
            }
        }
    }
}

/// Every action byte, for every number of actions.
fn actions(c: &mut Checker, m: usize) {
    let chart = charts::counted(2, m, 2 * m);
    for action in 0..=255 {
        for node in [5, 6] {
            let told = c.sheets(&chart, &[1, 0, 2, node, action, 1]);
            if (action as usize) < m || action == 255 {
                [&told[0], &told[2]].into_iter().for_each(|told| c.expect_answered("an action", told));
            } else {
                told.iter().for_each(|told| c.expect_refused("no such action", told, (1, 12, 4, 0)));
            }
        }
    }
}

pub fn jobs() -> Vec<Job> {
    let mut jobs: Vec<Job> =
        (62..=64).map(|n| Job { name: "places: triples", run: Box::new(move |c| triples(c, n)) }).collect();
    jobs.push(Job { name: "places: out of range", run: Box::new(out_of_range) });
    jobs.push(Job { name: "places: cuts", run: Box::new(cuts) });
    for k in 0..4 {
        jobs.push(Job {
            name: "places: before the triples",
            run: Box::new(move |c| {
                for n in (1..=64).filter(|n| n % 4 == k) {
                    heads(c, n);
                    codes(c, n);
                }
            }),
        });
    }
    jobs.push(Job { name: "places: formulas", run: Box::new(|c| (3..=403).for_each(|place| formulas(c, place))) });
    jobs.push(Job {
        name: "places: heads of sheets and actions",
        run: Box::new(|c| {
            sheet_heads(c);
            (0..=32).for_each(|m| actions(c, m));
        }),
    });
    jobs
}
