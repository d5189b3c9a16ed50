//! Competing faults, with the refusal that document 01's order gives, written by hand. Both solutions of a sheet have the same as a
//! property.

use super::boards::{with_kind, E};
use crate::checker::Checker;
use crate::Job;

/// A chart of 14 bytes, good in all: counts at 0, 3 and 6, codes at 4, triples at 8 and 11.
pub const GOOD: [u8; 14] = [2, 7, 8, 2, 1, 2, 2, 0, 0, 0, 1, 1, 1, 0];

/// The input as it is, and with more after it: each byte is judged as read, so that only where one is absent this matters.
fn with_more(input: &[u8], number: u64) -> Vec<Vec<u8>> {
    let more: [&[u8]; 4] = [&[], &[1], &[9], &[255; 300]];
    let tried = if number == 1 { &more[..1] } else { &more };
    tried.iter().map(|after| [input, *after].concat()).collect()
}

/// GOOD with these bytes changed, cut or made longer to a length.
fn changed(changes: &[(usize, u8)], length: usize) -> Vec<u8> {
    let mut out = GOOD.to_vec();
    out.resize(length.max(14), 9);
    for &(at, byte) in changes {
        out[at] = byte;
    }
    out.truncate(length);
    out
}

/// What, the chart, and the number, the place and the byte of its refusal.
pub type Faulty = (&'static str, Vec<u8>, [u64; 3]);

fn before_the_triples() -> Vec<Faulty> {
    vec![
        ("nothing", vec![], [1, 0, 0]),
        ("no state", vec![0], [2, 0, 0]),
        ("65 states", vec![65], [2, 0, 0]),
        ("255 states", vec![255; 300], [2, 0, 0]),
        ("modes absent", changed(&[], 1), [1, 1, 0]),
        ("a mode absent", changed(&[], 2), [1, 2, 0]),
        ("action count absent", changed(&[], 3), [1, 3, 0]),
        ("33 actions", changed(&[(3, 33)], 4), [3, 3, 0]),
        ("a code absent", changed(&[], 5), [1, 5, 0]),
        ("codes equal", changed(&[(5, 1)], 6), [4, 5, 0]),
        ("codes fall", changed(&[(4, 3)], 14), [4, 5, 0]),
        ("the first code 0", changed(&[(4, 0), (12, 2)], 14), [6, 1, 1]),
        ("count absent", changed(&[], 6), [1, 6, 0]),
        ("count's second byte absent", changed(&[(6, 255)], 7), [1, 7, 0]),
        ("1,025 transitions", changed(&[(6, 1), (7, 4)], 8), [5, 6, 0]),
        ("65,535 transitions", changed(&[(6, 255), (7, 255)], 14), [5, 6, 0]),
        ("codes equal and 1,025 transitions", changed(&[(5, 1), (6, 1), (7, 4)], 14), [4, 5, 0]),
    ]
}

fn triples() -> Vec<Faulty> {
    vec![
        ("source absent", changed(&[], 8), [1, 8, 0]),
        ("source out of range", changed(&[(8, 2)], 9), [6, 0, 0]),
        ("action out of range", changed(&[(9, 2)], 10), [6, 0, 1]),
        ("target out of range", changed(&[(10, 2)], 11), [6, 0, 2]),
        ("source and action out of range", changed(&[(8, 2), (9, 2)], 14), [6, 0, 0]),
        ("action and target out of range", changed(&[(9, 255), (10, 255)], 14), [6, 0, 1]),
        ("the same triple", changed(&[(11, 0), (12, 0), (13, 1)], 14), [7, 1, 0]),
        ("smaller by its source", changed(&[(8, 1), (11, 0)], 14), [7, 1, 0]),
        ("smaller by its action", changed(&[(9, 1), (11, 0), (12, 0)], 14), [7, 1, 0]),
        ("smaller by its target", changed(&[(11, 0), (12, 0), (13, 0)], 14), [7, 1, 0]),
        ("smaller, and its target absent", changed(&[(8, 1), (11, 0)], 13), [1, 13, 0]),
        ("smaller, and its target out of range", changed(&[(8, 1), (11, 0), (13, 2)], 14), [6, 1, 2]),
        ("smaller, and a byte left over", changed(&[(8, 1), (11, 0)], 15), [7, 1, 0]),
        ("bytes left over", changed(&[], 16), [8, 14, 0]),
        ("a count too small", changed(&[(6, 1)], 14), [8, 11, 0]),
        ("a count too large", changed(&[(6, 3)], 14), [1, 14, 0]),
        ("no action, one triple", vec![1, 9, 0, 1, 0, 0, 0, 0], [6, 0, 1]),
        ("no action, its source out of range", vec![1, 9, 0, 1, 0, 1, 0, 0], [6, 0, 0]),
    ]
}

/// GOOD's states and actions with other triples, and so many bytes of the last cut off.
fn lines(triples: &[[u8; 3]], cut_off: usize) -> Vec<u8> {
    let mut out = [&GOOD[..6], &[triples.len() as u8, 0], triples.concat().as_slice()].concat();
    out.truncate(out.len() - cut_off);
    out
}

/// Several faults in the triples, and which of them is told: the first that is read.
fn several_triples() -> Vec<Faulty> {
    vec![
        ("all three bytes out of range", lines(&[[0, 0, 0], [2, 2, 2]], 0), [6, 1, 0]),
        ("source and target out of range", lines(&[[0, 0, 0], [2, 1, 2]], 0), [6, 1, 0]),
        ("the second's action and target out of range", lines(&[[0, 0, 0], [1, 2, 2]], 0), [6, 1, 1]),
        ("out of range, and the next not greater", lines(&[[1, 0, 2], [0, 0, 0]], 0), [6, 0, 2]),
        ("out of range, and the next too", lines(&[[0, 0, 0], [0, 2, 0], [2, 2, 2]], 0), [6, 1, 1]),
        ("not greater, and the next out of range", lines(&[[1, 0, 0], [0, 1, 1], [2, 0, 0]], 0), [7, 1, 0]),
        ("not greater, and the next not either", lines(&[[1, 1, 1], [1, 0, 1], [1, 0, 0]], 0), [7, 1, 0]),
        ("the last smaller, and its action out of range", lines(&[[0, 0, 0], [1, 1, 1], [0, 2, 0]], 0), [6, 2, 1]),
        ("the last smaller, and its target out of range", lines(&[[0, 0, 0], [1, 1, 1], [0, 0, 255]], 0), [6, 2, 2]),
        ("the last smaller", lines(&[[0, 0, 0], [1, 1, 1], [1, 1, 0]], 0), [7, 2, 0]),
        ("the second's source absent", lines(&[[0, 0, 0], [1, 0, 0]], 3), [1, 11, 0]),
        ("the second's action absent", lines(&[[0, 0, 0], [1, 0, 0]], 2), [1, 12, 0]),
        ("the second's target absent", lines(&[[0, 0, 0], [1, 0, 0]], 1), [1, 13, 0]),
        ("smaller, and its action absent", lines(&[[1, 0, 0], [0, 0, 0]], 2), [1, 12, 0]),
        ("source out of range, and no action", lines(&[[0, 0, 0], [2, 0, 0]], 2), [6, 1, 0]),
        ("action out of range, and no target", lines(&[[0, 0, 0], [1, 2, 0]], 1), [6, 1, 1]),
        ("action out of range, and the next absent", lines(&[[0, 2, 0], [1, 1, 1]], 3), [6, 0, 1]),
        ("not greater, and the next absent in part", lines(&[[1, 0, 0], [0, 0, 0], [1, 1, 1]], 2), [7, 1, 0]),
    ]
}

/// Faulty charts.
pub fn faulty() -> impl Iterator<Item = Faulty> {
    [before_the_triples(), triples(), several_triples()].into_iter().flatten()
}

fn charts(c: &mut Checker) {
    for (what, chart, [number, place, byte]) in faulty() {
        for chart in with_more(&chart, number) {
            // with no room for an answer too: the chart comes first; and with a bad sheet
            for buffer in [0, 4096] {
                let told = [
                    c.marks(&chart, buffer),
                    c.simulation(&chart, buffer),
                    c.short_form(&chart, &[0], 9, buffer),
                    c.compare(&chart, &[0], buffer),
                ];
                told.iter().for_each(|told| c.expect_refused(what, told, (0, number, place, byte)));
                let told = c.compare(&GOOD, &chart, buffer);
                c.expect_refused(what, &told, (3, number, place, byte));
            }
            let told = c.equal(&chart);
            told.iter().for_each(|told| c.expect_refused(what, told, (0, number, place, byte)));
            // a sheet that is absent, bad at once, or good
            for sheet in [[].as_slice(), &[0], &[1, 3, 0], &[1, 2, 1, 7], &[1, 0, 1, 1], &[255; 300]] {
                let told = [c.property(&chart, sheet), c.both_solutions(&chart, sheet)];
                told.iter().for_each(|told| c.expect_refused(what, told, (0, number, place, byte)));
            }
        }
    }
    let told = c.marks(&GOOD, 3);
    c.expect_refused("buffer", &told, (2, 14, 0, 0));
}

/// What, the sheet, and the number and the place of its refusal.
const FAULTY_SHEETS: &[(&str, &[u8], u64, u64)] = &[
    ("nothing", &[], 1, 0),
    ("no equation", &[0], 9, 0),
    ("two equations", &[2, 3, 0], 9, 0),
    ("kind absent", &[1], 1, 1),
    ("kind 3", &[1, 3], 9, 1),
    ("kind 255 and no node", &[1, 255, 0], 9, 1),
    ("node count absent", &[1, 0], 1, 2),
    ("no node", &[1, 0, 0], 10, 2),
    ("201 nodes", &[1, 0, 201], 10, 2),
    ("node absent", &[1, 0, 1], 1, 3),
    ("node 7", &[1, 0, 1, 7], 11, 3),
    ("node 255", &[1, 0, 2, 255, 0], 11, 3),
    ("action byte absent", &[1, 0, 1, 5], 1, 4),
    ("action byte m, nodes used up", &[1, 0, 1, 5, 3], 12, 4),
    ("action byte 254", &[1, 0, 2, 6, 254, 1], 12, 4),
    ("nodes used up after a diamond", &[1, 0, 1, 5, 0], 13, 5),
    ("nodes used up after a box", &[1, 0, 1, 6, 255], 13, 5),
    ("nodes used up within an and", &[1, 0, 2, 3, 1], 13, 5),
    ("both operands missing", &[1, 0, 1, 4], 13, 4),
    ("complete, nodes remain", &[1, 0, 2, 1], 13, 4),
    ("complete with a variable, nodes remain", &[1, 0, 3, 0], 13, 4),
    ("complete, many nodes remain", &[1, 0, 200, 5, 255, 2], 13, 6),
    ("second operand absent", &[1, 0, 3, 3, 1], 1, 5),
    ("second operand bad", &[1, 0, 3, 3, 1, 7], 11, 5),
    ("second operand's action absent", &[1, 0, 4, 3, 1, 5], 1, 6),
    ("a byte left over", &[1, 0, 1, 1, 9], 8, 4),
    ("a byte left over after a variable", &[1, 0, 1, 0, 9], 8, 4),
    ("a good node left over", &[1, 0, 3, 3, 1, 1, 0], 8, 6),
];

/// Where the kind is 0, the sheet with each kind.
fn with_kinds(sheet: Vec<u8>) -> Vec<Vec<u8>> {
    match sheet.get(1) {
        Some(0) => (0..3).map(|kind| with_kind(&sheet, kind)).collect(),
        _ => vec![sheet],
    }
}

fn sheets(c: &mut Checker) {
    for &(what, sheet, number, place) in FAULTY_SHEETS {
        for sheet in with_more(sheet, number).into_iter().flat_map(with_kinds) {
            let told = [
                c.property(&E, &sheet),
                c.both_solutions(&E, &sheet),
                c.short_form(&E, &sheet, 0, 0),
                c.short_form(&E, &sheet, 9, 402),
            ];
            told.iter().for_each(|told| c.expect_refused(what, told, (1, number, place, 0)));
        }
    }
}

/// What, the sheet, the name, the length of the buffer; then the input, the number and the place.
type Case<'a> = (&'a str, &'a [u8], u64, usize, u64, u64, u64);

fn short_forms(c: &mut Checker) {
    // F of 198 nodes, all but the last boxes
    let mut long = vec![1, 0, 198];
    long.extend((1..198).flat_map(|_| [6, 255]));
    long.push(1);
    let mut long_with_variable = long.clone();
    *long_with_variable.last_mut().unwrap() = 0;
    let plain = [1, 0, 1, 1];
    let table: [Case; 12] = [
        ("a variable, a bad name, no room", &[1, 0, 1, 0], 9, 0, 1, 16, 3),
        ("the second operand a variable", &[1, 0, 3, 3, 1, 0], 0, 0, 1, 16, 5),
        ("the first of two variables", &[1, 0, 4, 3, 5, 0, 0, 0], 0, 402, 1, 16, 6),
        ("a variable, and action byte 0 before it", &[1, 0, 2, 5, 0, 0], 0, 402, 1, 16, 5),
        ("a variable in a long F", &long_with_variable, 0, 402, 1, 16, 397),
        ("name 4, no room", &plain, 4, 0, 2, 17, 0),
        ("name 256", &plain, 256, 402, 2, 17, 0),
        ("the greatest name", &plain, u64::MAX, 402, 2, 17, 0),
        ("name 4, a long F", &long, 4, 0, 2, 17, 0),
        ("a long F, no room", &long, 0, 0, 1, 10, 2),
        ("no room", &plain, 3, 0, 2, 14, 0),
        ("a byte too short", &plain, 2, 11, 2, 14, 0),
    ];
    for (what, sheet, name, buffer, input, number, place) in table {
        let told = c.short_form(&E, sheet, name, buffer);
        c.expect_refused(what, &told, (input, number, place, 0));
    }
    // a name with a higher bit, whatever its lower ones
    for name in (2..64).flat_map(|bit| (0..4).map(move |low| 1 << bit | low)) {
        let told = c.short_form(&E, &plain, name, 402);
        c.expect_refused("a great name", &told, (2, 17, 0, 0));
    }
}

pub fn jobs() -> Vec<Job> {
    vec![Job {
        name: "order",
        run: Box::new(|c| {
            charts(c);
            sheets(c);
            short_forms(c);
        }),
    }]
}
