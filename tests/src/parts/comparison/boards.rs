//! Pairs of charts with their answers written by hand: those of the examples, codes that are shared or not, and the edges.

use super::super::boards::{E, L};
use super::{expect_list, list};
use crate::checker::Checker;
use crate::inputs::charts::counted;
use crate::reference::chart::{self, Chart};
use crate::Job;
use std::collections::BTreeSet;

/// E's first design alone, and its second: the same event sequences.
const SAME_SEQUENCES_1: [u8; 19] = [3, 1, 3, 6, 3, 10, 20, 30, 3, 0, 0, 0, 1, 1, 1, 2, 1, 2, 2];
const SAME_SEQUENCES_2: [u8; 23] = [4, 2, 4, 5, 6, 3, 10, 20, 30, 4, 0, 0, 0, 1, 0, 0, 2, 1, 1, 3, 2, 2, 3];

/// An old unit and its replacement: the same event sequences, and one mode of the new unit has no partner. The new one has an
/// action code more, before all others.
const OLD_UNIT: [u8; 22] = [3, 1, 2, 3, 3, 10, 20, 30, 4, 0, 0, 0, 1, 1, 1, 0, 1, 2, 2, 2, 1, 0];
const NEW_UNIT: [u8; 30] = [4, 4, 1, 2, 3, 4, 5, 10, 20, 30, 6, 0, 0, 1, 2, 0, 1, 3, 1, 1, 2, 2, 2, 1, 2, 3, 3, 3, 2, 1];

/// One state that steps to itself by the action at a place among these codes.
fn loops(codes: &[u8], by: u8) -> Vec<u8> {
    [&[1, 9, codes.len() as u8], codes, &[1, 0, 0, by, 0]].concat()
}

/// In a buffer that is just long enough, and in longer ones; a byte less is refused.
fn board(c: &mut Checker, what: &str, first: &[u8], second: &[u8], rounds: usize, list: &[u8]) {
    for buffer in [list.len(), 67, 1000] {
        let told = c.compare(first, second, buffer);
        expect_list(c, what, &told, rounds, list);
    }
    let told = c.compare(first, second, list.len() - 1);
    c.expect_refused(what, &told, (2, 14, 0, 0));
}

/// Whether two charts have the same sequences of action codes, each from its state 0. A sequence leads to a set of states in
/// either chart; all such pairs of sets are gone through, and none may be empty in one chart only.
fn same_sequences(charts: [&Chart; 2]) -> bool {
    let after = |i: usize, before: &BTreeSet<u8>, code: u8| -> BTreeSet<u8> {
        let steps = charts[i].steps.iter().filter(|s| before.contains(&s.source) && charts[i].codes[s.action as usize] == code);
        steps.map(|s| s.target).collect()
    };
    let mut met = vec![[BTreeSet::from([0]), BTreeSet::from([0])]];
    let mut at = 0;
    while at < met.len() {
        for code in 0..=255 {
            let led = [0, 1].map(|i| after(i, &met[at][i], code));
            if led[0].is_empty() != led[1].is_empty() {
                return false;
            }
            if !met.contains(&led) {
                met.push(led);
            }
        }
        at += 1;
    }
    true
}

/// What the lesson says of the files: equal event sequences, and of the two units' states just one without a partner.
fn lesson(c: &mut Checker, files: [&[u8]; 4]) {
    let [design, other, old, new] = files.map(|file| chart::read(file).unwrap());
    c.expect(same_sequences([&design, &other]), || "the two designs have unequal event sequences".into());
    c.expect(same_sequences([&old, &new]), || "the two units have unequal event sequences".into());
    // a step less, and a code changed: they are not always equal
    let less = Chart { steps: new.steps[..5].to_vec(), ..new.clone() };
    let changed = Chart { codes: vec![5, 10, 20, 31], ..new };
    for new in [less, changed] {
        c.expect(!same_sequences([&old, &new]) && !same_sequences([&new, &old]), || format!("equal event sequences: {new:?}"));
    }
    for (first, second) in [(files[2], files[3]), (files[3], files[2])] {
        // the list has 3 bytes, and one for each state without a partner
        let told = c.compare(first, second, 67);
        let fine = told.code == 0 && told.numbers[0] == 3 + 1;
        c.expect(fine, || format!("not one state of the two units without a partner: {:?}", &told.buffer[..8]));
    }
}

fn examples(c: &mut Checker) {
    board(c, "E beside itself", &E, &E, 2, &[0, 0, 0]);
    board(c, "L beside itself", &L, &L, 2, &[0, 0, 0]);
    board(c, "one state beside itself", &[1, 0, 0, 0, 0], &[1, 0, 0, 0, 0], 0, &[0, 0, 0]);
    // the states at rest are partners, and no others
    board(c, "the same sequences", &SAME_SEQUENCES_1, &SAME_SEQUENCES_2, 2, &[2, 2, 0, 1, 3, 0, 1, 2]);
    board(c, "the same sequences, the other way", &SAME_SEQUENCES_2, &SAME_SEQUENCES_1, 2, &[2, 3, 0, 1, 2, 2, 0, 1]);
    // E holds both designs, so that each state of either has a partner there; E's states 1, 3 and 4 have none in the first
    board(c, "a design beside E", &SAME_SEQUENCES_1, &E, 2, &[0, 0, 3, 1, 3, 4]);
    board(c, "E beside a design", &E, &SAME_SEQUENCES_1, 2, &[0, 3, 1, 3, 4, 0]);
    board(c, "the other design beside E", &SAME_SEQUENCES_2, &E, 2, &[2, 0, 2, 0, 2]);
    board(c, "an old unit beside the new", &OLD_UNIT, &NEW_UNIT, 2, &[2, 0, 1, 0]);
    board(c, "the new unit beside the old", &NEW_UNIT, &OLD_UNIT, 2, &[2, 1, 0, 0]);

    // as the files have them
    let files: [(&[u8], &[u8]); 4] = [
        (include_bytes!("../../../../examples/same_sequences_1.chart"), &SAME_SEQUENCES_1),
        (include_bytes!("../../../../examples/same_sequences_2.chart"), &SAME_SEQUENCES_2),
        (include_bytes!("../../../../examples/old_unit.chart"), &OLD_UNIT),
        (include_bytes!("../../../../examples/new_unit.chart"), &NEW_UNIT),
    ];
    files.iter().for_each(|(file, board)| c.expect(file == board, || format!("a file of examples/ is {file:?}")));
    lesson(c, files.map(|(file, _)| file));

    // E with its last triple twice
    let mut twice = E.to_vec();
    twice[11] = 8;
    twice.extend([4, 2, 5]);
    let told = c.compare(&E, &twice, 67);
    c.expect_refused("E beside E with a triple twice", &told, (3, 7, 7, 0));
    let told = c.compare(&twice, &E, 67);
    c.expect_refused("E with a triple twice beside E", &told, (0, 7, 7, 0));
    let told = c.compare(&twice, &twice, 0);
    c.expect_refused("both with a triple twice", &told, (0, 7, 7, 0));
}

/// Actions are matched by code, wherever it stands in the two sections.
fn codes(c: &mut Checker) {
    board(c, "the same place, other codes", &loops(&[10], 0), &loops(&[20], 0), 1, &[1, 1, 0, 1, 0]);
    board(c, "other places, the same code", &loops(&[10, 20], 1), &loops(&[20], 0), 0, &[0, 0, 0]);
    board(c, "codes that no step bears", &loops(&[7, 9], 0), &loops(&[3, 5, 7], 2), 0, &[0, 0, 0]);
    board(c, "codes that no chart shares, and no step", &counted(1, 2, 0), &[1, 9, 1, 0, 0, 0], 0, &[0, 0, 0]);
    // 0 -1-> 1 -2-> 0 beside 0 -2-> 1 -3-> 0: by places they would be equal; 1 and 0 differ in their second step
    let (first, second) = ([2, 0, 0, 2, 1, 2, 2, 0, 0, 0, 1, 1, 1, 0], [2, 0, 0, 2, 2, 3, 2, 0, 0, 0, 1, 1, 1, 0]);
    board(c, "partly shared codes", &first, &second, 2, &[1, 2, 0, 1, 2, 0, 1]);
    // L's action as the third of three
    let mut third = vec![3, 1, 2, 3, 3, 8, 9, 10];
    third.extend(&L[6..]);
    [11, 14, 17].iter().for_each(|&at| third[at] = 2);
    board(c, "L beside L with more codes", &L, &third, 2, &[0, 0, 0]);
    board(c, "L with more codes beside L", &third, &L, 2, &[0, 0, 0]);
}

/// The chart with even codes in place of `counted`'s odd ones.
fn even_codes(mut chart: Vec<u8>) -> Vec<u8> {
    let (n, m) = (chart[0] as usize, chart[1 + chart[0] as usize] as usize);
    chart[2 + n..2 + n + m].iter_mut().for_each(|code| *code -= 1);
    chart
}

fn edges(c: &mut Checker) {
    let (states, actions, whole) = (|n| counted(n, 0, 0), |m| counted(1, m, 0), |t| counted(32, 32, t));
    board(c, "32 states and 32", &states(32), &states(32), 0, &[0, 0, 0]);
    board(c, "16 codes and 16 others", &actions(16), &even_codes(actions(16)), 0, &[0, 0, 0]);
    board(c, "32 codes and the same", &actions(32), &actions(32), 0, &[0, 0, 0]);
    board(c, "512 transitions and 512", &whole(512), &whole(512), 1, &[0, 0, 0]);
    let limits = [
        ("33 states and 32", states(33), states(32), 18),
        ("33 states beside themselves", states(33), states(33), 18),
        ("64 states and one", states(64), states(1), 18),
        ("17 codes and 16 others", actions(17), even_codes(actions(16)), 19),
        ("no code in common", actions(32), even_codes(actions(32)), 19),
        ("513 transitions and 512", whole(513), whole(512), 20),
        ("513 transitions beside themselves", whole(513), whole(513), 20),
    ];
    for (what, first, second, number) in limits {
        for (first, second) in [(&first, &second), (&second, &first)] {
            for buffer in [0, 67] {
                let told = c.compare(first, second, buffer);
                c.expect_refused(what, &told, (2, number, 0, 0));
            }
        }
    }
    // the longest list: 32 loops by one code, and 32 by another
    let loops = |code: u8| {
        let steps = (0..32).flat_map(|s| [s, 0, s]);
        [32].into_iter().chain(0..32).chain([1, code, 32, 0]).chain(steps).collect::<Vec<u8>>()
    };
    let all: [Vec<usize>; 2] = [(0..32).collect(), (0..32).collect()];
    board(c, "the longest list", &loops(1), &loops(2), 1, &list(1, &all));
}

pub fn jobs() -> Vec<Job> {
    vec![Job {
        name: "comparison: boards",
        run: Box::new(|c| {
            examples(c);
            codes(c);
            edges(c);
        }),
    }]
}
