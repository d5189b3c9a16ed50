//! Lists with their answers written by hand: ours of E and of L, and such as students hand in for them.

use super::super::boards::{E, L};
use super::{expect_bad, expect_lines};
use crate::checker::Checker;
use crate::Job;

/// E's list. Of mark 1 is a pair where one of the two has a step that the other cannot answer; 0 and 1 are told apart by the step
/// from 0 to 2, which 1 answers with 3 or 4, and by that from 1 to 3, which 0 answers with 2.
const OF_E: [[u8; 5]; 30] = [
    [0, 2, 0, 0, 2],
    [0, 3, 0, 0, 2],
    [0, 4, 0, 0, 2],
    [0, 5, 0, 0, 2],
    [1, 2, 0, 0, 3],
    [1, 3, 0, 0, 3],
    [1, 4, 0, 0, 3],
    [1, 5, 0, 0, 3],
    [2, 0, 0, 1, 5],
    [2, 1, 0, 1, 5],
    [2, 3, 0, 2, 5],
    [2, 4, 0, 1, 5],
    [2, 5, 0, 1, 5],
    [3, 0, 0, 1, 5],
    [3, 1, 0, 1, 5],
    [3, 2, 1, 2, 5],
    [3, 4, 0, 1, 5],
    [3, 5, 0, 1, 5],
    [4, 0, 0, 2, 5],
    [4, 1, 0, 2, 5],
    [4, 2, 1, 1, 5],
    [4, 3, 0, 2, 5],
    [4, 5, 0, 2, 5],
    [5, 0, 1, 0, 2],
    [5, 1, 1, 0, 3],
    [5, 2, 1, 1, 5],
    [5, 3, 1, 1, 5],
    [5, 4, 1, 2, 5],
    [0, 1, 0, 0, 2],
    [1, 0, 0, 0, 3],
];

/// L's list. 0 and 1 are told apart only by the step from 1 to 2: 0 answers with 0, which goes on, and 2 rests.
const OF_L: [[u8; 5]; 6] =
    [[0, 2, 0, 0, 0], [1, 2, 0, 0, 1], [2, 0, 1, 0, 0], [2, 1, 1, 0, 1], [0, 1, 1, 0, 2], [1, 0, 0, 0, 2]];

/// Our list of this chart, in buffers of several lengths, and its check.
fn board(c: &mut Checker, what: &str, chart: &[u8], list: &[u8]) {
    for buffer in [list.len(), list.len() + 1, 20_160, 30_000] {
        let told = c.reasons(chart, buffer);
        let fine = told.code == 0 && told.numbers[0] == list.len() as u64 && told.buffer.starts_with(list);
        c.expect(fine, || format!("{what}: refused {:?}, list {:?}", told.refusal(), &told.buffer[..list.len()]));
    }
    for buffer in [list.len().saturating_sub(1), list.len() / 2, 0].into_iter().filter(|&length| length < list.len()) {
        let told = c.reasons(chart, buffer);
        c.expect_refused(what, &told, (2, 14, 0, 0));
    }
    let told = c.check_reasons(chart, list);
    expect_lines(c, what, &told, list.len() / 5);
}

fn ours(c: &mut Checker) {
    board(c, "E", &E, OF_E.as_flattened());
    board(c, "L", &L, OF_L.as_flattened());
    board(c, "one state", &[1, 0, 0, 0, 0], &[]);
    board(c, "two that rest", &[2, 0, 0, 0, 0, 0], &[]);
    // a loop beside a state at rest
    board(c, "a loop", &[2, 0, 0, 1, 7, 1, 0, 0, 0, 0], &[0, 1, 0, 0, 0, 1, 0, 1, 0, 0]);
    // its second action, and the action's index is written, not its code
    board(c, "a second action", &[2, 0, 0, 2, 7, 9, 1, 0, 1, 1, 0], &[0, 1, 1, 1, 0, 1, 0, 0, 1, 0]);
}

/// Lists for E that are good: none, a part of ours, another order and other moves.
fn accepted(c: &mut Checker) {
    let lists: [(&str, &[[u8; 5]]); 7] = [
        ("an empty list", &[]),
        ("one line", &OF_E[7..8]),
        ("without the last two", &OF_E[..28]),
        ("what (0, 1) relies on, and (0, 1)", &[[2, 3, 0, 2, 5], [2, 4, 0, 1, 5], [0, 1, 0, 0, 2]]),
        ("the other order of these", &[[2, 4, 0, 1, 5], [2, 3, 0, 2, 5], [0, 1, 0, 0, 2]]),
        ("by the other side", &[[2, 3, 0, 2, 5], [0, 1, 1, 0, 3]]),
        ("by the greater target", &[[4, 2, 1, 1, 5], [1, 0, 0, 0, 4]]),
    ];
    for (what, list) in lists {
        let told = c.check_reasons(&E, list.as_flattened());
        expect_lines(c, what, &told, list.len());
    }
}

/// Lists for E that have one fault or more; the first is told.
fn refused(c: &mut Checker) {
    let lists: [(&str, &[[u8; 5]], usize); 15] = [
        ("p out of range", &[[6, 0, 1, 0, 2]], 0),
        ("q out of range", &[[0, 2, 0, 0, 2], [0, 6, 0, 0, 2]], 1),
        ("side 2", &[[0, 2, 2, 0, 2]], 0),
        ("action out of range", &[[0, 2, 0, 3, 2]], 0),
        ("the action's code", &[[0, 2, 0, 10, 2]], 0),
        ("no such step", &[[0, 2, 0, 0, 3]], 0),
        ("a step of the other side", &[[0, 2, 1, 0, 2]], 0),
        ("an answer that is equal", &[[2, 3, 0, 1, 5]], 0),
        ("relies on what is not listed", &[[2, 3, 0, 2, 5], [0, 1, 0, 0, 2]], 1),
        ("relies on a later line", &[[2, 4, 0, 1, 5], [0, 1, 0, 0, 2], [2, 3, 0, 2, 5]], 1),
        ("a pair in the other order", &[[3, 2, 1, 2, 5], [4, 2, 1, 1, 5], [0, 1, 0, 0, 2]], 2),
        ("the same line twice", &[[0, 2, 0, 0, 2], [0, 3, 0, 0, 2], [0, 2, 0, 0, 2]], 2),
        ("the same pair by another move", &[[2, 5, 0, 1, 5], [2, 5, 0, 2, 5]], 1),
        ("a state with itself", &[[5, 5, 0, 0, 2]], 0),
        ("a state with itself by a step", &[[0, 0, 0, 0, 2]], 0),
    ];
    for (what, list, line) in lists {
        for more in [[].as_slice(), &[0, 2, 0, 0, 2], &[255, 255], &OF_E[7]] {
            let told = c.check_reasons(&E, &[list.as_flattened(), more].concat());
            expect_bad(c, what, &told, line);
        }
    }
    // L's pair (0, 1) by the loops relies on itself
    let told = c.check_reasons(&L, &[0, 1, 0, 0, 0]);
    expect_bad(c, "relies on itself", &told, 0);
    for length in 1..5 {
        let told = c.check_reasons(&E, &OF_E[0][..length]);
        expect_bad(c, "an incomplete line alone", &told, 0);
    }
}

pub fn jobs() -> Vec<Job> {
    vec![Job {
        name: "reasons: boards",
        run: Box::new(|c| {
            ours(c);
            accepted(c);
            refused(c);
        }),
    }]
}
