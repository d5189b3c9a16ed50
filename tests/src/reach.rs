//! What must be reached in a run, beside the refusals of src/table.rs: every number of rounds where charts and formulas are as
//! large as can be, every answer's size and every division of the limits between two charts, and buffers too long by thousands
//! of bytes; of relations and of solutions every word of the steps, and of these every operand that changes, of both solutions of a
//! sheet every number of rounds that the two can have together and of states in which they differ, of sheets the lengths and what
//! remains of them; of equal states every number of classes, and every two as the only ones; of lists of reasons every length and
//! depth, every line that can be bad or incomplete, and of their lines every answer that can decide and every choice among moves;
//! and of faulty triples, for each question, every number and byte that they can have in small charts and in the longest.

use crate::archive::Question::{
    self, BothSolutions, CheckReasons, Compare, EqualPairs, EqualRows, Marks, Property, Reasons, ShortForm, Simulation,
};
use crate::counts::{byte as byte_of, Counts};
use crate::outcome::Outcome;
use std::ops::RangeInclusive;

mod both;
mod equal;
mod moves;
mod reasons;
pub mod relations;
pub mod sheets;
pub mod steps;

/// A question, and the input that its refusal names.
type Asked = (Question, u64);

/// What is counted, of which question where that matters, and a number that was reached.
pub type Value = (&'static str, Option<Asked>, u64);

/// What is counted, the number that an answer or a refusal reaches, if it has one, and all the numbers that must be reached.
type Row = (&'static str, fn(&Outcome) -> Option<u64>, RangeInclusive<u64>);

const ROWS: &[Row] = &[
    ("rounds of marks, 64 states", |o| rounds(o, Question::Marks, o.states() == 64), 0..=63),
    ("rounds of marks, the longest charts", |o| rounds(o, Question::Marks, o.of_longest()), 0..=63),
    ("rounds of simulation, 64 states", |o| rounds(o, Question::Simulation, o.states() == 64), 0..=63),
    ("rounds of simulation, the longest charts", |o| rounds(o, Question::Simulation, o.of_longest()), 0..=63),
    ("rounds of simulation in hundreds", |o| rounds(o, Question::Simulation, true).map(|k| k / 100), 0..=10),
    ("rounds of 200 nodes unsaid, the longest charts", |o| solved(o, 0), 0..=64),
    ("rounds of 200 nodes least, the longest charts", |o| solved(o, 1), 0..=64),
    ("rounds of 200 nodes greatest, the longest charts", |o| solved(o, 2), 0..=64),
    ("thousands too long, marks", |o| thousands(o, Question::Marks), 0..=5),
    ("thousands too long, simulation", |o| thousands(o, Question::Simulation), 0..=5),
    ("thousands too long, short form", |o| thousands(o, Question::ShortForm), 0..=5),
    ("nodes of F, name 0", |o| nodes_of_f(o, 0, o.answers(ShortForm)), 1..=197),
    ("nodes of F, name 1", |o| nodes_of_f(o, 1, o.answers(ShortForm)), 1..=197),
    ("nodes of F, name 2", |o| nodes_of_f(o, 2, o.answers(ShortForm)), 1..=194),
    ("nodes of F, name 3", |o| nodes_of_f(o, 3, o.answers(ShortForm)), 1..=194),
    ("nodes of F, name 0, refused 10", |o| nodes_of_f(o, 0, o.refuses(10)), 198..=200),
    ("nodes of F, name 1, refused 10", |o| nodes_of_f(o, 1, o.refuses(10)), 198..=200),
    ("nodes of F, name 2, refused 10", |o| nodes_of_f(o, 2, o.refuses(10)), 195..=200),
    ("nodes of F, name 3, refused 10", |o| nodes_of_f(o, 3, o.refuses(10)), 195..=200),
    ("thousands too long, compare", |o| thousands(o, Compare), 0..=5),
    ("rounds of compare, 64 states together", |o| rounds(o, Compare, o.states_together() == 64), 0..=63),
    ("mark of the start states, 64 together", |o| of_64(o, |o| o.left.buffer.part()[0] as usize), 0..=63),
    ("states of the first, 64 together", |o| of_64(o, |o| o.states()), 1..=63),
    ("of the first without a partner, 64 together", |o| of_64(o, |o| o.lists()[0].len()), 0..=63),
    ("of the second without a partner, 64 together", |o| of_64(o, |o| o.lists()[1].len()), 0..=63),
    // two partners at least, or none
    ("bytes of the list, 64 together", |o| of_64(o, |o| o.filled()), 3..=65),
    ("bytes of the list", |o| o.answers(Compare).then(|| o.filled() as u64), 3..=67),
    ("action codes together", |o| o.answers(Compare).then(|| o.codes_together() as u64), 0..=32),
    ("transitions of the first, 1,024 together", |o| first_of_most(o), 0..=1024),
    ("states of the first, refused 18 for 65", |o| refused_for_one(o, 18, o.states_together(), 65, o.states()), 1..=64),
    ("action codes together, refused 19", |o| refused(o, 19).then(|| o.codes_together() as u64), 33..=64),
    (
        "transitions of the first, refused 20 for 1,025",
        |o| refused_for_one(o, 20, o.transitions_together(), 1025, o.transitions()),
        1..=1024,
    ),
];

/// Of a refused chart, and of every question about it: of two charts as the first and as the second.
const OF_A_CHART: &[Row] = &[
    ("6, small charts: count, triple and byte", |o| small(o, 6, |_, line| of_count(line)), 0..=last_of_count()),
    ("6, small charts: states, actions and byte", |o| small(o, 6, states_and_actions), 0..=47),
    ("6, no action: states and byte", |o| small(o, 6, without_actions), 0..=7),
    ("7, small charts: count and triple", |o| small(o, 7, |_, line| of_count_from_1(line)), 0..=last_of_count_from_1()),
    ("1 within a triple, small charts", |o| small(o, 1, |_, line| of_count(line)), 0..=last_of_count()),
    ("6, the longest charts: triple and byte", |o| longest(o, 6).map(|(triple, byte)| 3 * triple + byte), 0..=3071),
    ("7, the longest charts: triple", |o| longest(o, 7).map(|(triple, _)| triple), 1..=1023),
    ("1 within a triple, the longest charts", |o| longest(o, 1).map(|(triple, byte)| 3 * triple + byte), 0..=3071),
    ("6, its byte of the file", |o| o.refuses(6).then(|| o.line_at() as u64), 5..=3171),
    ("7, its triple's first byte of the file", |o| o.refuses(7).then(|| o.line_at() as u64), 9..=3169),
    ("6, one state: source", |o| value(o, 0), 1..=255),
    ("6, no action or one: action", |o| value(o, 1), 0..=255),
    ("6, one state: target", |o| value(o, 2), 1..=255),
];

const EVERY_QUESTION: &[Option<Asked>] = &[
    Some((Marks, 0)),
    Some((Simulation, 0)),
    Some((Property, 0)),
    Some((ShortForm, 0)),
    Some((Compare, 0)),
    Some((Compare, 3)),
    Some((Reasons, 0)),
    Some((CheckReasons, 0)),
    Some((BothSolutions, 0)),
    Some((EqualRows, 0)),
    Some((EqualPairs, 0)),
];

/// The questions that solve a sheet, once or twice.
const SOLVING: &[Option<Asked>] = &[Some((Property, 0)), Some((BothSolutions, 0))];

/// The questions about a relation of states.
const RELATIONS: &[Option<Asked>] = &[Some((Marks, 0)), Some((Simulation, 0)), Some((EqualRows, 0)), Some((EqualPairs, 0))];

/// So many states, actions and triples a small chart has at the most.
const SMALL: usize = 4;
pub const SMALL_TRIPLES: usize = 16;

/// The count of triples, a triple and a byte of it.
type Line = (u64, u64, u64);

/// The triple and the byte at fault: as they are told; of a 1, the byte that is absent.
fn line(o: &Outcome, number: u64, counts: Counts) -> Option<(u64, u64)> {
    match number {
        1 => {
            let within = o.refused_chart().len().checked_sub(counts.first_triple())?;
            Some((within as u64 / 3, within as u64 % 3))
        }
        _ => Some((o.place() as u64, o.byte())),
    }
}

fn small(o: &Outcome, number: u64, value: fn(Counts, Line) -> Option<u64>) -> Option<u64> {
    if !o.refuses(number) {
        return None;
    }
    let counts = Counts::of(o.refused_chart());
    let (triple, byte) = line(o, number, counts)?;
    let is_small = counts.states <= SMALL && counts.actions <= SMALL && counts.transitions <= SMALL_TRIPLES;
    is_small.then(|| value(counts, (counts.transitions as u64, triple, byte)))?
}

/// A number of its own for each byte of each triple of each count.
fn of_count((count, triple, byte): Line) -> Option<u64> {
    Some(3 * (count * (count - 1) / 2 + triple) + byte)
}

/// The last of the numbers above.
const fn last_of_count() -> u64 {
    3 * (SMALL_TRIPLES * (SMALL_TRIPLES + 1) / 2) as u64 - 1
}

/// A number of its own for each triple but the first of each count.
fn of_count_from_1((count, triple, _): Line) -> Option<u64> {
    Some((count - 1) * (count - 2) / 2 + triple - 1)
}

/// The last of the numbers above.
const fn last_of_count_from_1() -> u64 {
    (SMALL_TRIPLES * (SMALL_TRIPLES - 1) / 2) as u64 - 1
}

/// A number of its own for each byte with each number of states, and of actions from 1.
fn states_and_actions(counts: Counts, (_, _, byte): Line) -> Option<u64> {
    let actions = counts.actions.checked_sub(1)?;
    Some(3 * ((counts.states - 1) * SMALL + actions) as u64 + byte)
}

/// The same without actions, where a target is never read.
fn without_actions(counts: Counts, (_, _, byte): Line) -> Option<u64> {
    (counts.actions == 0).then(|| 2 * (counts.states as u64 - 1) + byte)
}

fn longest(o: &Outcome, number: u64) -> Option<(u64, u64)> {
    let counts = Counts::of(o.refused_chart());
    let longest = o.refuses(number) && (counts.states, counts.actions, counts.transitions) == (64, 32, 1024);
    longest.then(|| line(o, number, counts))?
}

/// The value out of range at this byte of a triple, of one state and at most one action.
fn value(o: &Outcome, byte: u64) -> Option<u64> {
    let counts = Counts::of(o.refused_chart());
    let wanted = o.refuses(6) && o.byte() == byte && counts.states == 1 && counts.actions <= 1;
    wanted.then(|| byte_of(o.refused_chart(), o.line_at()) as u64)
}

fn rounds(o: &Outcome, question: Question, wanted: bool) -> Option<u64> {
    (o.answers(question) && wanted).then(|| o.rounds())
}

fn solved(o: &Outcome, kind: u8) -> Option<u64> {
    rounds(o, Question::Property, o.of_longest() && o.nodes() == 200 && o.kind() == Some(kind))
}

/// Of a short form with this name.
fn nodes_of_f(o: &Outcome, name: u64, wanted: bool) -> Option<u64> {
    (o.left.question == ShortForm && o.left.name == name && wanted).then(|| o.nodes() as u64)
}

fn thousands(o: &Outcome, question: Question) -> Option<u64> {
    o.answers(question).then(|| o.spare() as u64 / 1000)
}

/// Of a comparison with 64 states together.
fn of_64(o: &Outcome, value: fn(&Outcome) -> usize) -> Option<u64> {
    (o.answers(Compare) && o.states_together() == 64).then(|| value(o) as u64)
}

fn first_of_most(o: &Outcome) -> Option<u64> {
    (o.answers(Compare) && o.transitions_together() == 1024).then(|| o.transitions() as u64)
}

fn refused(o: &Outcome, number: u64) -> bool {
    o.left.question == Compare && o.refuses(number)
}

/// The value, where a comparison is refused for one too many together.
fn refused_for_one(o: &Outcome, number: u64, together: usize, many: usize, value: usize) -> Option<u64> {
    (refused(o, number) && together == many).then_some(value as u64)
}

/// What an answer or a refusal reaches.
pub fn by(outcome: &Outcome) -> impl Iterator<Item = Value> + '_ {
    let asked = (outcome.left.question, outcome.input());
    // an input that is no chart has no triples
    let of_a_chart = if outcome.code != 0 && [0, 3].contains(&asked.1) { OF_A_CHART } else { &[] };
    let of_a_sheet = if outcome.code != 0 && sheets::EVERY_QUESTION.contains(&Some(asked)) { sheets::REFUSED } else { &[] };
    let (of_steps, of_sheets) = if steps::solved(outcome) { (steps::ROWS, sheets::ROWS) } else { (&[] as _, &[] as _) };
    let of_both = if outcome.answers(BothSolutions) { both::ROWS } else { &[] };
    let of_reasons = if [Reasons, CheckReasons].contains(&asked.0) { reasons::ROWS } else { &[] };
    let of_equal = if outcome.code == 0 && [EqualRows, EqualPairs].contains(&asked.0) { equal::ROWS } else { &[] };
    let of_one = ROWS.iter().chain(of_both).chain(of_reasons).chain(of_equal).map(|row| (row, None));
    let of_relations = if relations::answered(outcome) { relations::ROWS } else { &[] };
    let of_several = of_a_chart.iter().chain(of_a_sheet).chain(of_steps).chain(of_sheets).chain(of_relations);
    let of_several = of_several.map(move |row| (row, Some(asked)));
    let of_rows = of_one.chain(of_several);
    let of_moves = moves::by(outcome).into_iter().map(|(what, value)| (what, None, value));
    let of_changes = steps::by(outcome).into_iter().map(move |(what, value)| (what, Some(asked), value));
    of_rows
        .filter_map(|((what, value, _), asked)| value(outcome).map(|value| (*what, asked, value)))
        .chain(of_moves)
        .chain(of_changes)
}

/// All that must be reached.
pub fn must() -> impl Iterator<Item = Value> {
    rows().flat_map(|(what, asked, range)| {
        asked.iter().flat_map(move |&asked| range.clone().map(move |value| (what, asked, value)))
    })
}

/// What is counted, of which questions, and how far it must go.
pub fn rows() -> impl Iterator<Item = (&'static str, &'static [Option<Asked>], RangeInclusive<u64>)> {
    let of = |rows: &'static [Row]| rows.iter().map(|(what, _, range)| (*what, range.clone()));
    let of_one = of(ROWS).chain(of(both::ROWS)).chain(of(equal::ROWS)).chain(of(reasons::ROWS)).chain(moves::rows());
    let of_solutions = of(steps::ROWS).chain(of(sheets::ROWS)).chain(steps::of_changes());
    let of_one = of_one.map(|(what, range)| (what, [None].as_slice(), range));
    let of_solutions = of_solutions.map(|(what, range)| (what, SOLVING, range));
    let of_a_sheet = of(sheets::REFUSED).map(|(what, range)| (what, sheets::EVERY_QUESTION, range));
    let of_a_chart = of(OF_A_CHART).map(|(what, range)| (what, EVERY_QUESTION, range));
    let of_relations = of(relations::ROWS).map(|(what, range)| (what, RELATIONS, range));
    of_one.chain(of_solutions).chain(of_a_sheet).chain(of_a_chart).chain(of_relations)
}
