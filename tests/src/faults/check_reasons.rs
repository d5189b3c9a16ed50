//! Faults of the check of lists of reasons.

use super::Fault;
use crate::archive::Question::CheckReasons;
use crate::counts::Counts;
use crate::outcome::Outcome;
use crate::spelled::deepest;

const REFUSED: u64 = 21 | 1 << 8;

/// A list refused at this line.
fn refused_at(o: &Outcome, line: usize) -> bool {
    refused(o) && o.place() == line
}

fn refused(o: &Outcome) -> bool {
    o.left.question == CheckReasons && o.refuses(21)
}

/// The bad line, where it is whole and the list's last.
fn bad_last(o: &Outcome) -> Option<[u8; 5]> {
    let last = refused(o) && o.place() + 1 == o.reasons().len() && o.left.list.len() % 5 == 0;
    last.then(|| o.reasons()[o.place()])
}

/// Accepted, with so many lines.
fn accept(o: &mut Outcome) {
    o.code = 0;
    o.left.numbers[0] = o.reasons().len() as u64;
}

fn tell(o: &mut Outcome, line: usize) {
    o.code = REFUSED | (line as u64) << 16;
}

/// The line is in range and a step.
fn is_move(o: &Outcome, [p, q, side, action, target]: [u8; 5]) -> bool {
    let step = [if side == 0 { p } else { q }, action, target];
    p.max(q) < o.states() as u8 && side < 2 && triples(o).contains(&step)
}

fn triples(o: &Outcome) -> &[[u8; 3]] {
    let chart = o.left.chart.part();
    chart[Counts::of(chart).first_triple()..].as_chunks().0
}

/// The pairs that a line relies on.
fn relies_on(o: &Outcome, [p, q, side, action, target]: [u8; 5]) -> Vec<[u8; 2]> {
    let answering = if side == 0 { q } else { p };
    let answers = triples(o).iter().filter(|t| t[..2] == [answering, action]).map(|t| t[2]);
    answers.map(|answer| if side == 0 { [target, answer] } else { [answer, target] }).collect()
}

/// A pair has a line among these.
fn has(lines: &[[u8; 5]], pair: [u8; 2]) -> bool {
    lines.iter().any(|line| line[..2] == pair)
}

/// The line at this number is a move, its pair is new, and all that it relies on is its own pair or stands before.
fn relies_on_itself(o: &Outcome, number: usize) -> bool {
    if !refused_at(o, number) || o.reasons().len() <= number {
        return false;
    }
    let (line, before) = (o.reasons()[number], &o.reasons()[..number]);
    let own = [line[0], line[1]];
    is_move(o, line) && own[0] != own[1] && !has(before, own) && {
        let mut pairs = relies_on(o, line).into_iter();
        pairs.all(|pair| pair == own || has(before, pair))
    }
}

/// The line at this number is a move that relies on a later line.
fn relies_on_later(o: &Outcome, number: usize) -> bool {
    if !refused_at(o, number) || o.reasons().len() <= number {
        return false;
    }
    let (line, before) = (o.reasons()[number], &o.reasons()[..number]);
    is_move(o, line) && !has(before, [line[0], line[1]]) && {
        let mut pairs = relies_on(o, line).into_iter();
        pairs.all(|pair| has(before, pair) || has(&o.reasons()[number + 1..], pair))
    }
}

/// The bad line is the last of a short list, a move of this side and of a new pair, and all that it relies on stands before but for some
/// of the answers that are left unread.
fn reads_too_few(o: &Outcome, side: u8, read: fn(usize) -> usize) -> bool {
    if o.left.list.len() > 400 {
        return false;
    }
    let Some(line) = bad_last(o).filter(|line| line[2] == side) else { return false };
    let before = &o.reasons()[..o.place()];
    is_move(o, line) && !has(before, [line[0], line[1]]) && {
        let pairs = relies_on(o, line);
        pairs.len() > 4 && pairs[..read(pairs.len())].iter().all(|&pair| has(before, pair))
    }
}

/// The bad line is the last, and a move of a pair that stands before; by the same move, or by another.
fn twice(o: &Outcome, same: bool) -> bool {
    let Some(line) = bad_last(o) else { return false };
    let before = &o.reasons()[..o.place()];
    is_move(o, line) && has(before, [line[0], line[1]]) && before.contains(&line) == same
}

/// An answer with so many lines, of 64 states.
fn accepted(o: &Outcome, lines: u64) -> bool {
    o.answers(CheckReasons) && o.states() == 64 && o.left.numbers[0] == lines
}

pub const FAULTS: &[Fault] = &[
    Fault {
        name: "check-relies-on-itself",
        what: "a line that relies on its own pair accepted, only as the last of 64 unequal states' pairs",
        when: |o| relies_on_itself(o, 4_031),
        alter: accept,
    },
    Fault {
        name: "check-relies-on-itself-first",
        what: "a line that relies on its own pair accepted, only as the first of one",
        when: |o| relies_on_itself(o, 0) && o.left.list.len() == 5,
        alter: accept,
    },
    Fault {
        name: "check-relies-on-later",
        what: "a line that relies on a later one accepted, only as the last but one",
        when: |o| relies_on_later(o, 4_030),
        alter: accept,
    },
    Fault {
        name: "check-relies-on-the-next",
        what: "a line that relies on the next accepted, of two lines",
        when: |o| o.left.list.len() == 10 && relies_on_later(o, 0),
        alter: accept,
    },
    Fault {
        name: "check-reliance-unread",
        what: "what line 2,000 relies on left unread, where it is a move of a new pair and the last",
        when: |o| {
            let new = |line: [u8; 5]| is_move(o, line) && !has(&o.reasons()[..2_000], [line[0], line[1]]);
            refused_at(o, 2_000) && bad_last(o).is_some_and(new)
        },
        alter: accept,
    },
    Fault {
        name: "check-first-4-answers",
        what: "only the first 4 answers of a move of side 0 looked at, in the last line of a short list",
        when: |o| reads_too_few(o, 0, |_| 4),
        alter: accept,
    },
    Fault {
        name: "check-first-4-answers-side-1",
        what: "the same of side 1",
        when: |o| reads_too_few(o, 1, |_| 4),
        alter: accept,
    },
    Fault {
        name: "check-first-8-answers",
        what: "only the first 8 of side 0, in such a line",
        when: |o| reads_too_few(o, 0, |answers| answers.min(8)),
        alter: accept,
    },
    Fault {
        name: "check-first-8-answers-side-1",
        what: "the same of side 1",
        when: |o| reads_too_few(o, 1, |answers| answers.min(8)),
        alter: accept,
    },
    Fault {
        name: "check-first-32-answers",
        what: "only the first 32 of side 0, in such a line",
        when: |o| reads_too_few(o, 0, |answers| answers.min(32)),
        alter: accept,
    },
    Fault {
        name: "check-all-but-the-last-answer",
        what: "the last answer of a move of side 0 not looked at, in such a line",
        when: |o| reads_too_few(o, 0, |answers| answers - 1),
        alter: accept,
    },
    Fault {
        name: "check-all-but-the-last-side-1",
        what: "the same of side 1",
        when: |o| reads_too_few(o, 1, |answers| answers - 1),
        alter: accept,
    },
    Fault {
        name: "check-same-line-twice",
        what: "the second occurrence of a line forgotten, from line 4,000 on",
        when: |o| refused(o) && o.place() >= 4_000 && twice(o, true),
        alter: accept,
    },
    Fault {
        name: "check-pair-by-another-move",
        what: "the second occurrence of a pair forgotten, where it comes by another move, in line 1",
        when: |o| refused_at(o, 1) && twice(o, false),
        alter: accept,
    },
    Fault {
        name: "check-two-orders-as-one",
        what: "(1, 0) taken for (0, 1), in a list of these two",
        when: |o| o.answers(CheckReasons) && o.left.list.len() == 10 && has(o.reasons(), [0, 1]) && has(o.reasons(), [1, 0]),
        alter: |o| tell(o, 1),
    },
    Fault {
        name: "check-incomplete-as-absent",
        what: "four bytes after 4,032 lines read as nothing",
        when: |o| refused_at(o, 4_032) && o.left.list.len() == 20_164,
        alter: accept,
    },
    Fault {
        name: "check-one-byte-as-absent",
        what: "a list of one byte read as empty",
        when: |o| refused_at(o, 0) && o.left.list.len() == 1,
        alter: accept,
    },
    Fault {
        name: "check-line-read-on",
        what: "a line of four bytes read on beyond the list's end",
        when: |o| refused_at(o, 100) && o.left.list.len() == 504,
        alter: |o| {
            o.code = 0;
            o.left.numbers[0] = 101;
        },
    },
    Fault {
        name: "check-incomplete-first",
        what: "the incomplete end told where line 3 is bad",
        when: |o| refused_at(o, 3) && o.reasons().len() > 4 && o.left.list.len() % 5 != 0,
        alter: |o| tell(o, o.reasons().len()),
    },
    Fault {
        name: "check-last-bad-line",
        what: "the last line told, where it and line 5 have a state out of range",
        when: |o| {
            let out_of_range = |line: &[u8; 5]| line[0] as usize >= o.states();
            refused_at(o, 5) && o.reasons().len() > 6 && o.reasons().last().is_some_and(out_of_range)
        },
        alter: |o| tell(o, o.reasons().len() - 1),
    },
    Fault {
        name: "check-placed-by-byte",
        what: "the bad line's first byte as the place, only for line 4,032",
        when: |o| refused_at(o, 4_032),
        alter: |o| tell(o, 5 * 4_032),
    },
    Fault {
        name: "check-placed-by-its-end",
        what: "the list's length as the place of an incomplete line, only of line 1",
        when: |o| refused_at(o, 1) && o.left.list.len() < 10,
        alter: |o| tell(o, o.left.list.len()),
    },
    Fault {
        name: "check-from-1",
        what: "lines counted from 1, only the last of all pairs of 64 states",
        when: |o| refused_at(o, 4_031),
        alter: |o| tell(o, 4_032),
    },
    Fault {
        name: "check-low-byte",
        what: "the low byte of the line's number, only for 256",
        when: |o| refused_at(o, 256),
        alter: |o| tell(o, 0),
    },
    Fault {
        name: "check-input-0",
        what: "input 0 for a bad line, only from line 4,000 on",
        when: |o| refused(o) && o.place() >= 4_000,
        alter: |o| o.code -= 1 << 8,
    },
    Fault {
        name: "check-input-2",
        what: "input 2 for an incomplete line that is the first",
        when: |o| refused_at(o, 0) && o.left.list.len() < 5,
        alter: |o| o.code += 1 << 8,
    },
    Fault {
        name: "check-1-for-incomplete",
        what: "1 at the list's length for an incomplete line of three bytes",
        when: |o| refused(o) && o.reasons().len() == o.place() && o.left.list.len() % 5 == 3,
        alter: |o| o.code = 1 | 1 << 8 | (o.left.list.len() as u64) << 16,
    },
    Fault {
        name: "check-byte-of-the-line",
        what: "the byte within the line, for a target out of range",
        when: |o| refused_at(o, 0) && o.reasons().first().is_some_and(|l| l[4] as usize >= o.states()),
        alter: |o| o.code |= 4 << 48,
    },
    Fault {
        name: "check-side-modulo-2",
        what: "side 2 taken for 0, where the line is fine but for that and the last",
        when: |o| bad_last(o).is_some_and(|[p, q, s, a, t]| s == 2 && is_move(o, [p, q, 0, a, t])) && o.states() == 6,
        alter: accept,
    },
    Fault {
        name: "check-state-modulo-64",
        what: "a state taken modulo 64, in the last line of a list of 64 states",
        when: |o| o.states() == 64 && bad_last(o).is_some_and(|line| (64..128).contains(&line[1])),
        alter: accept,
    },
    Fault {
        name: "check-code-of-the-action",
        what: "an action's code accepted, in a line of E",
        when: |o| o.states() == 6 && bad_last(o).is_some_and(|line| line[3] == 10) && o.left.list.len() == 5,
        alter: accept,
    },
    Fault {
        name: "check-lines-one-less",
        what: "the number of lines, one less, only where they are 4,032",
        when: |o| accepted(o, 4_032),
        alter: |o| o.left.numbers[0] = 4_031,
    },
    Fault {
        name: "check-lines-in-bytes",
        what: "the number of bytes in place of lines, only where there is one",
        when: |o| o.answers(CheckReasons) && o.left.list.len() == 5,
        alter: |o| o.left.numbers[0] = 5,
    },
    Fault {
        name: "check-lines-low-byte",
        what: "the low byte of the number of lines, where it is 256",
        when: |o| accepted(o, 256),
        alter: |o| o.left.numbers[0] = 0,
    },
    Fault {
        name: "check-empty-refused",
        what: "an empty list refused, for a null pointer",
        when: |o| o.answers(CheckReasons) && o.left.list.null,
        alter: |o| tell(o, 0),
    },
    Fault {
        name: "check-not-complete",
        what: "a list that lacks the last of all pairs refused, of 64 states",
        when: |o| accepted(o, 4_031),
        alter: |o| tell(o, 4_031),
    },
    Fault {
        name: "check-only-our-order",
        what: "a good list of over 40 lines refused, where the pair of its second line is smaller than that of its first",
        when: |o| o.answers(CheckReasons) && o.reasons().len() > 40 && o.reasons()[0][..2] > o.reasons()[1][..2],
        alter: |o| tell(o, 1),
    },
    Fault {
        name: "check-depth-over-63",
        what: "a good list refused where formulas are deeper than 1,000",
        when: |o| accepted(o, 1_023) && deepest(o) > 1_000,
        alter: |o| tell(o, 63),
    },
    Fault {
        name: "check-list-before-the-chart",
        what: "21 where the chart lacks its last byte and the list is bad",
        when: |o| o.left.question == CheckReasons && o.refuses(1) && o.place() == 33,
        alter: |o| tell(o, 0),
    },
    Fault {
        name: "check-number-on-21",
        what: "the lines before the bad one written as the number, from 4,000 on",
        when: |o| refused(o) && o.place() >= 4_000,
        alter: |o| o.left.numbers[0] = o.place() as u64,
    },
    Fault {
        name: "check-list-written",
        what: "the last byte of the longest list, which is lent to be read",
        when: |o| accepted(o, 4_032),
        alter: |o| o.left.list.flip(20_159),
    },
    Fault {
        name: "check-around-the-list",
        what: "the bytes before and after a list that is refused in its last line",
        when: |o| refused_at(o, 4_031) && bad_last(o).is_some(),
        alter: |o| o.left.list.flip_around(),
    },
];
