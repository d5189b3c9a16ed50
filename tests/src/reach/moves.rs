//! What must be reached by some line of a list of reasons, whichever it is, and by the moves that its pair has beside the line's: for
//! side 0 and for side 1. Charts of fewer than 16 states are left aside: they have few moves, and there are very many of them.

use crate::archive::Question::{CheckReasons, Reasons};
use crate::outcome::Outcome;
use crate::spelled::{formulas, members, Steps};
use std::collections::BTreeSet;
use std::ops::RangeInclusive;

/// What is counted: a place in the rows.
#[derive(Clone, Copy, PartialEq, Eq, PartialOrd, Ord)]
enum What {
    Answers,
    OneUnfit,
    SecondTarget,
    SecondAction,
    OtherSide,
    LaterAction,
    LaterTarget,
    DeepAction,
    DeepTarget,
    ListedAnswers,
    OneUnlisted,
}

use What::*;

/// What is counted, its names for side 0 and side 1, and how far it must go.
type Row = (What, [&'static str; 2], RangeInclusive<u64>);

/// Every count of answers up to 64, and each of so many.
const EACH_OF_COUNT: RangeInclusive<u64> = 0..=64 * 65 / 2 - 1;

const ROWS: &[Row] = &[
    (Answers, ["answers of a line's move, side 0", "answers of a line's move, side 1"], 0..=63),
    // of a move that would come before the line's
    (OneUnfit, ["the only answer that does not fit, side 0", "the only answer that does not fit, side 1"], EACH_OF_COUNT),
    (SecondTarget, ["depth of a line with a second target, side 0", "depth of a line with a second target, side 1"], 1..=63),
    (SecondAction, ["depth of a line with a second action, side 0", "depth of a line with a second action, side 1"], 1..=63),
    // a line is of side 1 only where side 0 has no move
    (OtherSide, ["depth of a line with a move of side 1 too", ""], 1..=63),
    (LaterAction, ["action of a later line, side 0", "action of a later line, side 1"], 0..=31),
    (LaterTarget, ["target of a later line, side 0", "target of a later line, side 1"], 0..=63),
    (DeepAction, ["action of a line deeper than 20, side 0", "action of a line deeper than 20, side 1"], 0..=31),
    (DeepTarget, ["target of a line deeper than 20, side 0", "target of a line deeper than 20, side 1"], 0..=63),
    (ListedAnswers, ["answers of an accepted line, side 0", "answers of an accepted line, side 1"], 0..=63),
    (OneUnlisted, ["the only answer that is not listed, side 0", "the only answer that is not listed, side 1"], EACH_OF_COUNT),
];

/// All names, and how far each must go.
pub fn rows() -> impl Iterator<Item = (&'static str, RangeInclusive<u64>)> {
    let of_sides = ROWS.iter().flat_map(|(_, names, range)| names.iter().map(|&name| (name, range.clone())));
    of_sides.filter(|(name, _)| !name.is_empty())
}

/// What, of which side, and the number that is reached.
type Seen = BTreeSet<(What, usize, u64)>;

/// What a list reaches that is written, or handed in.
pub fn by(o: &Outcome) -> Vec<(&'static str, u64)> {
    let mut seen = Seen::new();
    match o.left.question {
        Reasons if o.code == 0 && o.states() >= 16 => of_our_own(o, &mut seen),
        CheckReasons if (o.code == 0 || o.refuses(21)) && o.states() >= 16 => of_a_list(o, &mut seen),
        _ => {}
    }
    seen.into_iter().map(|(what, side, value)| (ROWS[what as usize].1[side], value)).collect()
}

/// A step of one state, and the states by which the other answers it.
#[derive(Clone, Copy)]
struct Move {
    side: usize,
    action: usize,
    target: usize,
    answers: u64,
}

/// The pairs that are known to be unequal: a word of states for each.
type Pairs = [u64; 64];

impl Move {
    fn of(steps: &Steps, line: &[u8; 5]) -> Move {
        let [p, q, side, action, target] = line.map(usize::from);
        Move { side, action, target, answers: steps.to[action][if side == 0 { q } else { p }] }
    }

    /// The answers which are not known to be unequal to the target: pairs are marked alike in both orders.
    fn unfit(&self, pairs: &Pairs) -> u64 {
        self.answers & !pairs[self.target]
    }

    /// The same of a list, which may have a pair in one order alone.
    fn unlisted(&self, pairs: &Pairs) -> u64 {
        let listed = |&u: &usize| if self.side == 0 { pairs[self.target] >> u } else { pairs[u] >> self.target } & 1 == 1;
        members(self.answers).filter(|u| !listed(u)).fold(0, |word, u| word | 1 << u)
    }

    /// If this is one answer alone: a number of its own for each of each count.
    fn only(&self, among: u64) -> Option<u64> {
        let count = self.answers.count_ones() as u64;
        let number = (self.answers & among.wrapping_sub(1)).count_ones() as u64;
        among.is_power_of_two().then(|| count * (count - 1) / 2 + number)
    }
}

/// All moves of both sides, in the order in which they are tried.
fn moves(steps: &Steps, p: usize, q: usize) -> impl Iterator<Item = Move> + '_ {
    [(0, p, q), (1, q, p)].into_iter().flat_map(move |(side, stepping, answering)| {
        steps.to.iter().enumerate().flat_map(move |(action, to)| {
            members(to[stepping]).map(move |target| Move { side, action, target, answers: to[answering] })
        })
    })
}

fn of_our_own(o: &Outcome, seen: &mut Seen) {
    let (chart, lines) = (o.left.chart.part(), o.reasons());
    let (steps, formulas) = (Steps::of(chart), formulas(chart, lines).unwrap_or_default());
    // those of smaller marks, and those of this mark too
    let (mut smaller, mut so_far, mut mark) = ([0; 64], [0; 64], 0);
    for (number, (line, formula)) in lines.iter().zip(&formulas).enumerate() {
        if formula.depth > mark {
            (smaller, mark) = (so_far, formula.depth);
        }
        so_far[line[0] as usize] |= 1 << line[1];
        let own = Move::of(&steps, line);
        of_line(seen, &own, number, mark, steps.n);
        beside(seen, &own, mark, &smaller, moves(&steps, line[0] as usize, line[1] as usize));
    }
}

/// What the line itself has.
fn of_line(seen: &mut Seen, own: &Move, number: usize, mark: usize, n: usize) {
    let (side, action, target) = (own.side, own.action as u64, own.target as u64);
    seen.insert((Answers, side, own.answers.count_ones() as u64));
    if number > 0 {
        seen.insert((LaterAction, side, action));
        seen.insert((LaterTarget, side, target));
    }
    if mark > 20 {
        seen.insert((DeepAction, side, action));
        if n == 64 {
            seen.insert((DeepTarget, side, target));
        }
    }
}

/// What the pair's moves have beside it: one before it that an answer alone keeps from fitting, and others that fit.
fn beside(seen: &mut Seen, own: &Move, mark: usize, smaller: &Pairs, moves: impl Iterator<Item = Move>) {
    let place = |m: &Move| (m.side, m.action, m.target);
    let mark = mark as u64;
    for other in moves.filter(|other| place(other) != place(own)) {
        let unfit = other.unfit(smaller);
        if place(&other) < place(own) {
            seen.extend(other.only(unfit).map(|value| (OneUnfit, other.side, value)));
        } else if unfit == 0 {
            let what = match () {
                _ if other.side != own.side => OtherSide,
                _ if other.action != own.action => SecondAction,
                _ => SecondTarget,
            };
            seen.insert((what, own.side, mark));
        }
    }
}

/// The lines that are accepted; and the one that is not, where it is a move of a new pair.
fn of_a_list(o: &Outcome, seen: &mut Seen) {
    let steps = Steps::of(o.left.chart.part());
    let good = if o.code == 0 { o.reasons().len() } else { o.place() };
    let mut pairs = [0; 64];
    for line in &o.reasons()[..good] {
        pairs[line[0] as usize] |= 1 << line[1];
        if o.code == 0 {
            let own = Move::of(&steps, line);
            seen.insert((ListedAnswers, own.side, own.answers.count_ones() as u64));
        }
    }
    let Some(line @ &[p, q, side, action, target]) = o.reasons().get(good) else { return };
    let in_range = p.max(q).max(target) < steps.n as u8 && side < 2 && (action as usize) < steps.to.len();
    if !in_range || pairs[p as usize] >> q & 1 == 1 {
        return;
    }
    let stepping = if side == 0 { p } else { q };
    if steps.to[action as usize][stepping as usize] >> target & 1 == 1 {
        let own = Move::of(&steps, line);
        seen.extend(own.only(own.unlisted(&pairs)).map(|value| (OneUnlisted, own.side, value)));
    }
}
