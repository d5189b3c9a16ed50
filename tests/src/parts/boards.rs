//! The boards and edges of document 01, with its values, and by document 02 both solutions of their sheets and which states are equal.

use crate::checker::{Checker, Told};
use crate::inputs::charts::counted;
use crate::Job;

/// Chart E, 34 bytes.
pub const E: [u8; 34] = [
    6, 1, 2, 3, 4, 5, 6, 3, 0x0a, 0x14, 0x1e, 7, 0, //
    0, 0, 2, 1, 0, 3, 1, 0, 4, 2, 1, 5, 2, 2, 5, 3, 1, 5, 4, 2, 5,
];

/// The sheet for E: box 0 (and (diamond 1 true), (diamond 2 true)).
pub const E_SHEET: [u8; 12] = [1, 1, 6, 6, 0, 3, 5, 1, 1, 5, 2, 1];

/// Chart L: three states, one action.
pub const L: [u8; 17] = [3, 1, 2, 3, 1, 10, 3, 0, 0, 0, 0, 1, 0, 1, 1, 0, 2];

/// For L: or (box 0 false), diamond 0 X; and (diamond 0 true), box 0 X.
pub const L_OR: [u8; 10] = [1, 1, 5, 4, 6, 0, 2, 5, 0, 0];
pub const L_AND: [u8; 10] = [1, 1, 5, 3, 5, 0, 1, 6, 0, 0];

/// The names of short forms, and the most nodes that F can have with each.
pub const NAMES: [(u64, usize); 4] = [(0, 197), (1, 197), (2, 194), (3, 194)];

fn expect_matrix(c: &mut Checker, what: &str, told: Told, states: u64, rounds: u64, cells: &[u8]) {
    let fine = told.code == 0 && told.numbers[..2] == [states, rounds] && told.buffer[..cells.len()] == *cells;
    c.expect(fine, || format!("{what}: code {} numbers {:?} cells {:?}", told.code, &told.numbers[..2], told.buffer));
}

fn expect_satisfying(c: &mut Checker, what: &str, told: Told, word: u64, count: u64, rounds: u64) {
    let fine = told.code == 0 && told.numbers[..3] == [word, count, rounds];
    c.expect(fine, || format!("{what}: code {} numbers {:?}", told.code, &told.numbers[..3]));
}

pub fn with_kind(sheet: &[u8], kind: u8) -> Vec<u8> {
    [&[sheet[0], kind], &sheet[2..]].concat()
}

/// Both solutions, whatever the kind byte says.
fn expect_both(c: &mut Checker, what: &str, chart: &[u8], sheet: &[u8], least: [u64; 3], greatest: [u64; 3]) {
    for kind in 0..3 {
        let told = c.both_solutions(chart, &with_kind(sheet, kind));
        let fine = told.code == 0 && told.halves() == [least, greatest];
        c.expect(fine, || format!("both of {what}, kind {kind}: code {} numbers {:?}", told.code, told.numbers));
    }
}

/// These are the rows of equal states, one for each state, and those after them are 0; and so many pairs are equal.
fn expect_equal(c: &mut Checker, what: &str, chart: &[u8], rows: &[u64], count: u64) {
    let [told, pairs] = c.equal(chart);
    let (of_states, after) = told.rows.split_at(rows.len());
    let fine = told.code == 0 && told.numbers[0] == rows.len() as u64 && of_states == rows && after.iter().all(|&row| row == 0);
    c.expect(fine, || format!("{what}: code {} states {} rows {:x?}", told.code, told.numbers[0], told.rows));
    let fine = pairs.code == 0 && pairs.numbers[0] == count;
    c.expect(fine, || format!("{what}: code {} pairs {}", pairs.code, pairs.numbers[0]));
}

/// No two states of E or L are equal. Of two chains of two, and a state that loops, 0 and 2 are, and 1 and 3, which rest. Without steps
/// all states are; and where each of 64 steps to the next, none are.
fn equal(c: &mut Checker) {
    expect_equal(c, "equal states of E", &E, &[1, 2, 4, 8, 16, 32], 6);
    expect_equal(c, "equal states of L", &L, &[1, 2, 4], 3);
    let chains = [5, 1, 2, 3, 4, 5, 1, 10, 3, 0, 0, 0, 1, 2, 0, 3, 4, 0, 4];
    expect_equal(c, "two chains and a loop", &chains, &[0b00101, 0b01010, 0b00101, 0b01010, 0b10000], 9);
    expect_equal(c, "one state", &[1, 0, 0, 0, 0], &[1], 1);
    expect_equal(c, "two states without steps", &counted(2, 0, 0), &[3, 3], 4);
    expect_equal(c, "63 states without steps", &counted(63, 0, 0), &[u64::MAX >> 1; 63], 63 * 63);
    expect_equal(c, "64 states without steps", &counted(64, 0, 0), &[u64::MAX; 64], 64 * 64);
    let steps: Vec<u8> = (0..63).flat_map(|s| [s, 0, s + 1]).collect();
    let chain = [&counted(64, 1, 0)[..67], &[63, 0], &steps].concat();
    expect_equal(c, "a chain of 64", &chain, &std::array::from_fn::<u64, 64, _>(|p| 1 << p), 64);
}

fn board_e(c: &mut Checker) {
    let mut marks = [1; 36];
    for p in 0..6 {
        marks[p * 6 + p] = 0;
    }
    marks[1] = 2;
    marks[6] = 2;
    let told = c.marks(&E, 36);
    expect_matrix(c, "marks of E", told, 6, 2, &marks);

    // every other pair by hand: rows p, columns q, 1 where q simulates p
    let simulation = [
        1, 0, 0, 0, 0, 0, //
        1, 1, 0, 0, 0, 0, //
        0, 0, 1, 0, 0, 0, //
        0, 0, 1, 1, 0, 0, //
        0, 0, 1, 0, 1, 0, //
        1, 1, 1, 1, 1, 1,
    ];
    let told = c.simulation(&E, 36);
    expect_matrix(c, "simulation of E", told, 6, 2, &simulation);

    let told = c.property(&E, &E_SHEET);
    expect_satisfying(c, "sheet of E", told, 61, 5, 1);
    // a box holds at a state without such steps
    let told = c.property(&E, &[1, 1, 2, 6, 0, 2]);
    expect_satisfying(c, "box 0 false on E", told, 60, 4, 1);
    // without a variable every set is taken to the same one: from none, and from all, in one round
    expect_both(c, "the sheet of E", &E, &E_SHEET, [61, 5, 1], [61, 5, 1]);
    expect_both(c, "box 0 false on E", &E, &[1, 1, 2, 6, 0, 2], [60, 4, 1], [60, 4, 1]);
    // a step to X by any action: from none nothing comes; from all first 5 goes, then 2, 3 and 4, then 0 and 1
    expect_both(c, "diamond X on E", &E, &[1, 0, 2, 5, 255, 0], [0, 0, 0], [0, 0, 3]);
}

fn board_l(c: &mut Checker) {
    let told = c.marks(&L, 9);
    expect_matrix(c, "marks of L", told, 3, 2, &[0, 2, 1, 2, 0, 1, 1, 1, 0]);
    for (what, sheet, kind, word, count, rounds) in [
        ("L, or, least", L_OR, 1, 6, 2, 2),
        ("L, or, greatest", L_OR, 2, 7, 3, 0),
        ("L, and, greatest", L_AND, 2, 1, 1, 2),
        ("L, and, least", L_AND, 1, 0, 0, 0),
        ("L, or, unsaid", L_OR, 0, 6, 2, 2),
        ("L, and, unsaid", L_AND, 0, 0, 0, 0),
    ] {
        let told = c.property(&L, &with_kind(&sheet, kind));
        expect_satisfying(c, what, told, word, count, rounds);
    }
    expect_both(c, "or on L", &L, &L_OR, [6, 2, 2], [7, 3, 0]);
    expect_both(c, "and on L", &L, &L_AND, [0, 0, 0], [1, 1, 2]);
}

/// One state without actions, so that a diamond is false and a box true; 64 that all loop; and X alone, which every set solves.
fn both_of_few_nodes(c: &mut Checker) {
    let (none, one, one_in_one_round) = ([0, 0, 0], [1, 1, 0], [1, 1, 1]);
    for (what, formula, least, greatest) in [
        ("X", vec![0], none, one),
        ("true", vec![1], one_in_one_round, one),
        ("false", vec![2], none, [0, 0, 1]),
        ("diamond X", vec![5, 255, 0], none, [0, 0, 1]),
        ("box X", vec![6, 255, 0], one_in_one_round, one),
    ] {
        let sheet = [&[1, 0, formula.len().div_ceil(2) as u8], formula.as_slice()].concat();
        expect_both(c, what, &[1, 0, 0, 0, 0], &sheet, least, greatest);
    }
    let loops: Vec<u8> = (0..64).flat_map(|s| [s, 0, s]).collect();
    let chart = [&counted(64, 1, 0)[..67], &[64, 0], &loops].concat();
    let (all, all_in_one_round) = ([u64::MAX, 64, 0], [u64::MAX, 64, 1]);
    expect_both(c, "X of 64", &chart, &[1, 0, 1, 0], none, all);
    expect_both(c, "diamond X of 64", &chart, &[1, 0, 2, 5, 0, 0], none, all);
    expect_both(c, "box X of 64", &chart, &[1, 0, 2, 6, 0, 0], none, all);
    expect_both(c, "diamond true of 64", &chart, &[1, 0, 2, 5, 0, 1], all_in_one_round, all);
    expect_both(c, "box false of 64", &chart, &[1, 0, 2, 6, 0, 2], none, [0, 0, 1]);
}

fn edges(c: &mut Checker) {
    let told = c.marks(&[1, 0, 0, 0, 0], 1);
    expect_matrix(c, "one state", told, 1, 0, &[0]);
    let told = c.simulation(&[1, 0, 0, 0, 0], 1);
    expect_matrix(c, "one state, simulation", told, 1, 0, &[1]);
    let told = c.marks(&[], 4096);
    c.expect_refused("empty chart", &told, (0, 1, 0, 0));

    let told = c.marks(&counted(64, 0, 0), 4096);
    c.expect_answered("64 states", &told);
    let told = c.marks(&counted(65, 0, 0), 4225);
    c.expect_refused("65 states", &told, (0, 2, 0, 0));
    let told = c.marks(&counted(1, 32, 0), 1);
    c.expect_answered("32 actions", &told);
    let told = c.marks(&counted(1, 33, 0), 1);
    c.expect_refused("33 actions", &told, (0, 3, 2, 0));
    let told = c.marks(&counted(64, 32, 1024), 4096);
    c.expect_answered("1,024 transitions", &told);
    let told = c.marks(&counted(64, 32, 1025), 4096);
    c.expect_refused("1,025 transitions", &told, (0, 5, 98, 0));

    // the same triple twice, and the document's printed line: triple 7 of E
    for eighth in [[4, 2, 5], [0, 0, 0]] {
        let mut more = E.to_vec();
        more[11] = 8;
        more.extend(eighth);
        let told = c.marks(&more, 36);
        c.expect_refused("an eighth triple of E", &told, (0, 7, 7, 0));
    }
    for (length, enough) in [(36, true), (35, false)] {
        let (marks, simulation) = (c.marks(&E, length), c.simulation(&E, length));
        for told in [marks, simulation] {
            if enough {
                c.expect_answered("buffer of n * n bytes", &told);
            } else {
                c.expect_refused("a byte less", &told, (2, 14, 0, 0));
            }
        }
    }
}

fn short_forms(c: &mut Checker) {
    // F: k - 1 diamonds and true
    let f = |nodes: usize| {
        let mut out = vec![1, 2, nodes as u8];
        out.extend((1..nodes).flat_map(|_| [5, 0]));
        out.push(1);
        out
    };
    for (name, most) in NAMES {
        let told = c.short_form(&E, &f(most), name, 402);
        c.expect_answered("short form with the most nodes", &told);
        let told = c.short_form(&E, &f(most + 1), name, 402);
        c.expect_refused("short form with a node more", &told, (1, 10, 2, 0));
    }
    // eventually false, on L: by the old form the resting state counted, and now none does
    let told = c.property(&L, &[1, 1, 4, 4, 2, 6, 255, 0]);
    expect_satisfying(c, "eventually false on L, the old form", told, 4, 1, 1);
    let told = c.short_form(&L, &[1, 0, 1, 2], 3, 402);
    let written = told.buffer[..(told.numbers[0] as usize).min(402)].to_vec();
    c.expect(written == [1, 1, 7, 4, 2, 3, 5, 255, 1, 6, 255, 0], || format!("eventually false: {written:?}"));
    let told = c.property(&L, &written);
    expect_satisfying(c, "eventually false on L", told, 0, 0, 0);
}

/// Written out by hand, for F = diamond 0 true; its own kind does not matter.
fn written(c: &mut Checker) {
    for (name, written) in [
        (0, vec![1, 2, 5, 3, 5, 0, 1, 6, 255, 0]),
        (1, vec![1, 1, 5, 4, 5, 0, 1, 5, 255, 0]),
        (2, vec![1, 2, 8, 3, 5, 0, 1, 4, 6, 255, 2, 5, 255, 0]),
        (3, vec![1, 1, 8, 4, 5, 0, 1, 3, 5, 255, 1, 6, 255, 0]),
    ] {
        let length = written.len();
        for kind in 0..3 {
            let f = [1, kind, 2, 5, 0, 1];
            let told = c.short_form(&E, &f, name, length);
            let fine = told.code == 0 && told.numbers[0] == length as u64 && told.buffer == written;
            c.expect(fine, || format!("short form {name} of kind {kind}: {:?}", told.buffer));
            let told = c.short_form(&E, &f, name, length - 1);
            c.expect_refused("buffer a byte too short", &told, (2, 14, 0, 0));
        }
    }
}

/// Always and a safe path write kind 2 in place of 0, and on L the same states satisfy what they write: diamond 0 true holds at 0 and 1;
/// 0 loops, 1 loops or comes to 2, which rests.
fn satisfied_as_before(c: &mut Checker) {
    for (what, name, numbers) in [("always", 0, [1, 1, 2]), ("a safe path", 2, [3, 2, 1])] {
        let told = c.short_form(&L, &[1, 0, 2, 5, 0, 1], name, 402);
        let written = told.buffer[..(told.numbers[0] as usize).min(402)].to_vec();
        let [word, count, rounds] = numbers;
        let told = c.property(&L, &written);
        expect_satisfying(c, what, told, word, count, rounds);
        expect_both(c, what, &L, &written, [0, 0, 0], numbers);
        // a sheet of theirs that was stored before says 0: now it is read as least
        let told = c.property(&L, &with_kind(&written, 0));
        expect_satisfying(c, "stored before", told, 0, 0, 0);
    }
}

/// What students try.
fn mistakes(c: &mut Checker) {
    // 0 and 3 simulate each other and are not equal: 0 steps to 1 or to 2, 3 to 1 alone; 1 goes on and 2 rests
    let both_ways = [4, 1, 2, 3, 4, 2, 10, 20, 4, 0, 0, 0, 1, 0, 0, 2, 1, 1, 2, 3, 0, 1];
    let told = c.simulation(&both_ways, 16);
    c.expect(told.code == 0 && told.buffer[3] == 1 && told.buffer[12] == 1, || format!("both ways: {:?}", told.buffer));
    let told = c.marks(&both_ways, 16);
    c.expect(told.code == 0 && told.buffer[3] == 2, || format!("both ways, marks: {:?}", told.buffer));
}

pub fn jobs() -> Vec<Job> {
    vec![Job {
        name: "boards",
        run: Box::new(|c| {
            board_e(c);
            board_l(c);
            both_of_few_nodes(c);
            equal(c);
            edges(c);
            short_forms(c);
            written(c);
            satisfied_as_before(c);
            mistakes(c);
        }),
    }]
}
