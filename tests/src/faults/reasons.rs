//! Faults of the lists of reasons that we write.

use super::Fault;
use crate::archive::Question::Reasons;
use crate::archive::MARGIN;
use crate::inputs::lists::moves;
use crate::outcome::Outcome;
use crate::reference::chart;
use crate::reference::nearness::marks_of;
use crate::reference::reasons::Line;
use crate::spelled::formulas;

/// A wrong rule for the move of a pair: whether the marks of the pairs that it relies on are fine beside the pair's own, and what
/// is least of the moves where they are.
struct Rule {
    fine: fn(&[u8], u8) -> bool,
    least: fn(&Line) -> [u8; 3],
}

fn all_smaller(marks: &[u8], own: u8) -> bool {
    marks.iter().all(|mark| (1..own).contains(mark))
}

fn in_order(line: &Line) -> [u8; 3] {
    [line.side, line.action, line.target]
}

const SIDE_1_FIRST: Rule = Rule { fine: all_smaller, least: |l| [1 - l.side, l.action, l.target] };
const GREATEST_TARGET: Rule = Rule { fine: all_smaller, least: |l| [l.side, l.action, 255 - l.target] };
const GREATEST_ACTION: Rule = Rule { fine: all_smaller, least: |l| [l.side, 255 - l.action, l.target] };
const ACTION_BEFORE_SIDE: Rule = Rule { fine: all_smaller, least: |l| [l.action, l.side, l.target] };
const TARGET_BEFORE_ACTION: Rule = Rule { fine: all_smaller, least: |l| [l.side, l.target, l.action] };
const NOT_GREATER: Rule = Rule { fine: |marks, own| marks.iter().all(|mark| (1..=own).contains(mark)), least: in_order };
const ANY_UNEQUAL: Rule = Rule { fine: |marks, _| marks.iter().all(|&mark| mark != 0), least: in_order };
const ZERO_IS_SMALL: Rule = Rule { fine: |marks, own| marks.iter().all(|&mark| mark < own), least: in_order };
const SOME_SMALLER: Rule =
    Rule { fine: |marks, own| marks.is_empty() || marks.iter().any(|mark| (1..own).contains(mark)), least: in_order };
const ONE_SMALLER: Rule = Rule { fine: |marks, own| marks.iter().all(|mark| mark + 1 == own), least: in_order };

const FIRST_4: Rule = Rule { fine: |marks, own| all_smaller(&marks[..marks.len().min(4)], own), least: in_order };
const FIRST_8: Rule = Rule { fine: |marks, own| all_smaller(&marks[..marks.len().min(8)], own), least: in_order };
const FIRST_32: Rule = Rule { fine: |marks, own| all_smaller(&marks[..marks.len().min(32)], own), least: in_order };
const ALL_BUT_THE_LAST: Rule =
    Rule { fine: |marks, own| marks.split_last().is_none_or(|(_, marks)| all_smaller(marks, own)), least: in_order };

/// The list by a wrong rule; where no move fits, the line is as it was.
fn by(o: &Outcome, rule: &Rule) -> Vec<[u8; 5]> {
    let steps = chart::read(o.left.chart.part()).unwrap().steps_by_source();
    let (marks, _) = marks_of(&steps).unwrap();
    let mark = |(x, y): (u8, u8)| marks[x as usize * steps.len() + y as usize];
    let line = |right: &[u8; 5]| {
        let [p, q, ..] = *right;
        let fine = |l: &Line| (rule.fine)(&l.relies_on(&steps).into_iter().map(mark).collect::<Vec<_>>(), mark((p, q)));
        let chosen = moves(&steps, (p as usize, q as usize)).into_iter().filter(fine).min_by_key(rule.least);
        chosen.map_or(*right, |l| l.bytes())
    };
    o.reasons().iter().map(line).collect()
}

/// Five states, two actions and seven steps, where the rule gives another list.
fn differs(o: &Outcome, rule: &Rule) -> bool {
    let counts = o.counts();
    let wanted = (counts.states, counts.actions, counts.transitions) == (5, 2, 7);
    o.answers(Reasons) && wanted && by(o, rule) != o.reasons()
}

/// The list by a wrong rule only in lines of this side.
fn on_side(o: &Outcome, rule: &Rule, side: u8) -> Vec<[u8; 5]> {
    o.reasons().iter().zip(by(o, rule)).map(|(right, wrong)| if right[2] == side { wrong } else { *right }).collect()
}

/// 64 states, three actions and from so many steps to four more: a move has half as many answers.
fn crowded(o: &Outcome, steps: usize, rule: &Rule, side: u8) -> bool {
    let wanted = (o.states(), o.actions()) == (64, 3) && (steps..steps + 5).contains(&o.transitions());
    o.answers(Reasons) && wanted && on_side(o, rule, side) != o.reasons()
}

/// The list by a wrong rule only in lines of this side which are deeper than 20.
fn deep(o: &Outcome, rule: &Rule, side: u8) -> Vec<[u8; 5]> {
    let formulas = formulas(o.left.chart.part(), o.reasons()).unwrap_or_default();
    let wrong = on_side(o, rule, side);
    let lines = o.reasons().iter().zip(wrong).zip(formulas);
    lines.map(|((right, wrong), formula)| if formula.depth > 20 { wrong } else { *right }).collect()
}

/// 40 states, where that gives another list.
fn differs_deep(o: &Outcome, rule: &Rule, side: u8) -> bool {
    o.answers(Reasons) && o.states() == 40 && o.actions() > 1 && deep(o, rule, side) != o.reasons()
}

/// Other lines in the place of the list's, as many.
fn write(o: &mut Outcome, lines: &[[u8; 5]]) {
    o.left.buffer.part_mut()[..5 * lines.len()].copy_from_slice(lines.as_flattened());
}

/// Fewer lines in their place.
fn shorten(o: &mut Outcome, lines: &[[u8; 5]]) {
    write(o, lines);
    o.left.numbers[0] = 5 * lines.len() as u64;
}

/// A list of all pairs of 64 states: the longest.
fn longest(o: &Outcome) -> bool {
    o.answers(Reasons) && o.filled() == 20_160
}

/// The lines in another order.
fn sorted<K: Ord>(o: &Outcome, key: impl Fn(&(usize, [u8; 5])) -> K) -> Vec<[u8; 5]> {
    let depths = formulas(o.left.chart.part(), o.reasons()).unwrap_or_default();
    let mut lines: Vec<_> = depths.iter().map(|formula| formula.depth).zip(o.reasons().iter().copied()).collect();
    lines.sort_by_key(key);
    lines.into_iter().map(|(_, line)| line).collect()
}

/// Nine states with all pairs unequal.
fn of_nine(o: &Outcome) -> bool {
    o.answers(Reasons) && o.states() == 9 && o.filled() == 360 && o.transitions() == 9
}

/// The last line of a list of 64 states.
fn last(o: &Outcome) -> Option<[u8; 5]> {
    (o.answers(Reasons) && o.states() == 64).then(|| o.reasons().last().copied())?
}

fn change_last(o: &mut Outcome, change: impl Fn([u8; 5]) -> [u8; 5]) {
    let mut lines = o.reasons().to_vec();
    let end = lines.len() - 1;
    lines[end] = change(lines[end]);
    write(o, &lines);
}

/// The code of an action.
fn code(o: &Outcome, action: u8) -> u8 {
    o.left.chart.part()[2 + o.states() + action as usize]
}

fn refused(o: &Outcome, number: u64) -> bool {
    o.left.question == Reasons && o.refuses(number)
}

/// A list refused for a buffer of this length, of 64 states.
fn no_room(o: &Outcome, length: usize) -> bool {
    refused(o, 14) && o.states() == 64 && o.left.buffer.len() == length
}

pub const FAULTS: &[Fault] = &[
    Fault {
        name: "reasons-side-1-first",
        what: "side 1 tried first, of five states with seven steps by two actions, and so below where it says so",
        when: |o| differs(o, &SIDE_1_FIRST),
        alter: |o| write(o, &by(o, &SIDE_1_FIRST)),
    },
    Fault {
        name: "reasons-greatest-target",
        what: "the greatest target, so many states and steps",
        when: |o| differs(o, &GREATEST_TARGET),
        alter: |o| write(o, &by(o, &GREATEST_TARGET)),
    },
    Fault {
        name: "reasons-greatest-action",
        what: "the greatest action, so many states and steps",
        when: |o| differs(o, &GREATEST_ACTION),
        alter: |o| write(o, &by(o, &GREATEST_ACTION)),
    },
    Fault {
        name: "reasons-action-before-side",
        what: "the least action of both sides, so many states and steps",
        when: |o| differs(o, &ACTION_BEFORE_SIDE),
        alter: |o| write(o, &by(o, &ACTION_BEFORE_SIDE)),
    },
    Fault {
        name: "reasons-target-before-action",
        what: "the least target of all actions, so many states and steps",
        when: |o| differs(o, &TARGET_BEFORE_ACTION),
        alter: |o| write(o, &by(o, &TARGET_BEFORE_ACTION)),
    },
    Fault {
        name: "reasons-not-greater",
        what: "marks not greater than the pair's own, so many states and steps",
        when: |o| differs(o, &NOT_GREATER),
        alter: |o| write(o, &by(o, &NOT_GREATER)),
    },
    Fault {
        name: "reasons-any-unequal",
        what: "marks that are only not 0, so many states and steps",
        when: |o| differs(o, &ANY_UNEQUAL),
        alter: |o| write(o, &by(o, &ANY_UNEQUAL)),
    },
    Fault {
        name: "reasons-zero-is-small",
        what: "a mark of 0 taken for smaller, so many states and steps",
        when: |o| differs(o, &ZERO_IS_SMALL),
        alter: |o| write(o, &by(o, &ZERO_IS_SMALL)),
    },
    Fault {
        name: "reasons-some-smaller",
        what: "some pair of a smaller mark in place of all, so many states and steps",
        when: |o| differs(o, &SOME_SMALLER),
        alter: |o| write(o, &by(o, &SOME_SMALLER)),
    },
    Fault {
        name: "reasons-one-smaller",
        what: "marks that are one smaller and no less, so many states and steps",
        when: |o| differs(o, &ONE_SMALLER),
        alter: |o| write(o, &by(o, &ONE_SMALLER)),
    },
    Fault {
        name: "reasons-first-4-answers",
        what: "only the first 4 answers of a move looked at, where the line is of side 0, of 64 states and some 22 steps",
        when: |o| crowded(o, 20, &FIRST_4, 0),
        alter: |o| write(o, &on_side(o, &FIRST_4, 0)),
    },
    Fault {
        name: "reasons-first-8-answers",
        what: "only the first 8, where the line is of side 0, of 64 states and some 42 steps",
        when: |o| crowded(o, 40, &FIRST_8, 0),
        alter: |o| write(o, &on_side(o, &FIRST_8, 0)),
    },
    Fault {
        name: "reasons-first-8-answers-side-1",
        what: "the same where the line is of side 1",
        when: |o| crowded(o, 40, &FIRST_8, 1),
        alter: |o| write(o, &on_side(o, &FIRST_8, 1)),
    },
    Fault {
        name: "reasons-first-32-answers",
        what: "only the first 32, where the line is of side 1, of 64 states and some 102 steps",
        when: |o| crowded(o, 100, &FIRST_32, 1),
        alter: |o| write(o, &on_side(o, &FIRST_32, 1)),
    },
    Fault {
        name: "reasons-all-but-the-last-answer",
        what: "the last answer of a move not looked at, where the line is of side 0, so many steps",
        when: |o| crowded(o, 100, &ALL_BUT_THE_LAST, 0),
        alter: |o| write(o, &on_side(o, &ALL_BUT_THE_LAST, 0)),
    },
    Fault {
        name: "reasons-all-but-the-last-side-1",
        what: "the same where the line is of side 1",
        when: |o| crowded(o, 100, &ALL_BUT_THE_LAST, 1),
        alter: |o| write(o, &on_side(o, &ALL_BUT_THE_LAST, 1)),
    },
    Fault {
        name: "reasons-deep-greatest-target",
        what: "the greatest target in lines of side 0 which are deeper than 20, of 40 states",
        when: |o| differs_deep(o, &GREATEST_TARGET, 0),
        alter: |o| write(o, &deep(o, &GREATEST_TARGET, 0)),
    },
    Fault {
        name: "reasons-deep-target-side-1",
        what: "the same in lines of side 1",
        when: |o| differs_deep(o, &GREATEST_TARGET, 1),
        alter: |o| write(o, &deep(o, &GREATEST_TARGET, 1)),
    },
    Fault {
        name: "reasons-deep-greatest-action",
        what: "the greatest action in such lines of side 0",
        when: |o| differs_deep(o, &GREATEST_ACTION, 0),
        alter: |o| write(o, &deep(o, &GREATEST_ACTION, 0)),
    },
    Fault {
        name: "reasons-deep-action-side-1",
        what: "the same in lines of side 1",
        when: |o| differs_deep(o, &GREATEST_ACTION, 1),
        alter: |o| write(o, &deep(o, &GREATEST_ACTION, 1)),
    },
    Fault {
        name: "reasons-deep-side-1-first",
        what: "side 1 tried first in such lines",
        when: |o| differs_deep(o, &SIDE_1_FIRST, 0),
        alter: |o| write(o, &deep(o, &SIDE_1_FIRST, 0)),
    },
    Fault {
        name: "reasons-p-before-mark",
        what: "lines that rise by p, then q, of nine unequal states with nine steps",
        when: of_nine,
        alter: |o| write(o, &sorted(o, |(_, line)| *line)),
    },
    Fault {
        name: "reasons-q-before-p",
        what: "lines that rise by mark, then q, then p, of such nine states",
        when: of_nine,
        alter: |o| write(o, &sorted(o, |&(mark, [p, q, ..])| (mark, q, p))),
    },
    Fault {
        name: "reasons-marks-fall",
        what: "lines of the greatest mark first, of such nine states",
        when: of_nine,
        alter: |o| write(o, &sorted(o, |&(mark, [p, q, ..])| (64 - mark, p, q))),
    },
    Fault {
        name: "reasons-one-order",
        what: "no line where p is greater than q, of such nine states",
        when: of_nine,
        alter: |o| {
            let lines: Vec<_> = o.reasons().iter().filter(|line| line[0] < line[1]).copied().collect();
            shorten(o, &lines);
        },
    },
    Fault {
        name: "reasons-only-answered",
        what: "no line where nothing answers a move, of such nine states",
        when: of_nine,
        alter: |o| {
            let deep = formulas(o.left.chart.part(), o.reasons()).unwrap().into_iter().map(|formula| formula.depth > 1);
            let lines: Vec<_> = o.reasons().iter().zip(deep).filter(|(_, deep)| *deep).map(|(line, _)| *line).collect();
            shorten(o, &lines);
        },
    },
    Fault {
        name: "reasons-last-line",
        what: "the last line of the longest list, which is missing",
        when: longest,
        alter: |o| o.left.numbers[0] = 20_155,
    },
    Fault {
        name: "reasons-diagonal",
        what: "a line for state 0 with itself, of three states with room for it",
        when: |o| o.answers(Reasons) && o.states() == 3 && o.filled() > 0 && o.spare() >= 5,
        alter: |o| {
            let lines = [&[[0, 0, 0, 0, 0]], o.reasons()].concat();
            write(o, &lines);
            o.left.numbers[0] += 5;
        },
    },
    Fault {
        name: "reasons-code-of-the-action",
        what: "the action's code in the last line, of 64 states, where its index is above 20",
        when: |o| last(o).is_some_and(|line| line[3] > 20 && code(o, line[3]) != line[3]),
        alter: |o| {
            let code = code(o, o.reasons()[o.reasons().len() - 1][3]);
            change_last(o, |[p, q, side, _, target]| [p, q, side, code, target]);
        },
    },
    Fault {
        name: "reasons-target-before-the-action",
        what: "action and target exchanged in the last line, of 64 states, where the target is 63",
        when: |o| last(o).is_some_and(|line| line[4] == 63 && line[3] != 63),
        alter: |o| change_last(o, |[p, q, side, action, target]| [p, q, side, target, action]),
    },
    Fault {
        name: "reasons-side-lost",
        what: "side 0 for 1 in the last line, of 64 states",
        when: |o| last(o).is_some_and(|line| line[2] == 1),
        alter: |o| change_last(o, |[p, q, _, action, target]| [p, q, 0, action, target]),
    },
    Fault {
        name: "reasons-deep-line",
        what: "the target of the last line, one more, in the longest list of a chart with 63 rounds",
        when: |o| longest(o) && o.transitions() == 63,
        alter: |o| change_last(o, |[p, q, side, action, target]| [p, q, side, action, target + 1]),
    },
    Fault {
        name: "reasons-written-in-lines",
        what: "the number of lines as the length of the longest list",
        when: longest,
        alter: |o| o.left.numbers[0] = 4_032,
    },
    Fault {
        name: "reasons-written-low-bits",
        what: "the length without what is above 16,383",
        when: |o| o.answers(Reasons) && o.filled() > 16_383,
        alter: |o| o.left.numbers[0] &= 16_383,
    },
    Fault {
        name: "reasons-next-byte",
        what: "the byte after the longest list, where the buffer is longer",
        when: |o| longest(o) && o.spare() > 0,
        alter: |o| o.left.buffer.flip(20_160),
    },
    Fault {
        name: "reasons-rest-cleared",
        what: "the rest of 20,160 bytes cleared, where 64 states are all equal",
        when: |o| o.answers(Reasons) && o.states() == 64 && o.filled() == 0 && o.spare() >= 20_160,
        alter: |o| o.left.buffer.part_mut()[..20_160].fill(0),
    },
    Fault {
        name: "reasons-later-byte",
        what: "byte 5,000 beyond the longest list, where the buffer is longer than that",
        when: |o| longest(o) && o.spare() > 5_000,
        alter: |o| o.left.buffer.flip(25_160),
    },
    Fault {
        name: "reasons-around-the-buffer",
        what: "the bytes before and after a buffer of 20,160",
        when: |o| longest(o) && o.spare() == 0,
        alter: |o| o.left.buffer.flip_around(),
    },
    Fault {
        name: "reasons-exact-refused",
        what: "a buffer of exactly 20,160 bytes refused with 14 for the longest list",
        when: |o| longest(o) && o.spare() == 0,
        alter: |o| o.code = 14 | 2 << 8,
    },
    Fault {
        name: "reasons-14-for-the-longest",
        what: "14 where the buffer is too short for all pairs of so many states, and not for those that are unequal",
        when: |o| o.answers(Reasons) && o.states() > 30 && o.left.buffer.len() < 5 * o.states() * (o.states() - 1),
        alter: |o| o.code = 14 | 2 << 8,
    },
    Fault {
        name: "reasons-14-for-nothing",
        what: "14 for a buffer of no bytes, where 64 states are all equal",
        when: |o| o.answers(Reasons) && o.states() == 64 && o.left.buffer.len() == 0,
        alter: |o| o.code = 14 | 2 << 8,
    },
    Fault {
        name: "reasons-short-accepted",
        what: "a buffer of 20,159 bytes accepted for the longest list",
        when: |o| no_room(o, 20_159),
        alter: |o| o.code = 0,
    },
    Fault {
        name: "reasons-lines-that-fit",
        what: "the first line written where there is room for all but the last",
        when: |o| no_room(o, 20_155),
        alter: |o| o.left.buffer.part_mut()[..5].iter_mut().for_each(|byte| *byte = !*byte),
    },
    Fault {
        name: "reasons-number-on-14",
        what: "the length that is needed, written where the buffer is a byte too short for the longest list",
        when: |o| no_room(o, 20_159),
        alter: |o| o.left.numbers[0] = 20_160,
    },
    Fault {
        name: "reasons-14-before-the-chart",
        what: "14 where there is no room and the chart has a byte left over",
        when: |o| refused(o, 8) && o.left.buffer.len() == 0,
        alter: |o| o.code = 14 | 2 << 8,
    },
    Fault {
        name: "reasons-before-the-chart",
        what: "the byte before a longest chart",
        when: |o| o.answers(Reasons) && o.of_longest(),
        alter: |o| o.left.chart.bytes[MARGIN - 1] ^= 1,
    },
];
