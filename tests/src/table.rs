//! What was asked and which refusals were met, and what must have been.

use crate::archive::{Question, QUESTIONS};
use crate::reach;
use crate::reference::refusal::Input;
use crate::tally::Tally;
use std::collections::BTreeSet;
use std::ops::RangeInclusive;

const LEAST_ASKED: usize = 200_000;

/// A refusal's number, its first and its last place, and what can stand there.
type Row = (u8, RangeInclusive<usize>, &'static [&'static str]);

/// Of a chart. Its triples start at byte n + m + 4, which is 5 to 100, and its last byte is 3,171 at the most. The place of 6 and 7
/// is the triple's number.
const OF_A_CHART: &[Row] = &[
    (
        1,
        0..=3171,
        &[
            "state count",
            "mode code",
            "action count",
            "action code",
            "low byte of the transition count",
            "high byte of the transition count",
            "source",
            "action",
            "target",
        ],
    ),
    (2, 0..=0, &["no state", "too many states"]),
    (3, 2..=65, &["action count"]),
    (4, 4..=97, &["equal code", "smaller code"]),
    (5, 3..=98, &["transition count"]),
    (6, 0..=1023, &["source", "action", "target"]),
    (7, 1..=1023, &["equal triple", "smaller source", "smaller action", "smaller target"]),
    (8, 5..=3172, &["byte left over"]),
];

/// Of the sheet. 200 nodes are 400 bytes where all are diamonds and boxes, and then an operand is missing.
const OF_THE_SHEET: &[Row] = &[
    (1, 0..=402, &["equation count", "kind", "node count", "node", "action byte of a node"]),
    (8, 4..=402, &["byte left over"]),
    (9, 0..=1, &["equation count", "kind"]),
    (10, 2..=2, &["no node", "too many nodes"]),
    (11, 3..=401, &["first node", "later node"]),
    (12, 4..=402, &["action of a diamond", "action of a box"]),
    (13, 4..=403, &["complete while nodes remain", "used up and operands missing"]),
];

/// What a short form adds for its sheet. 15 is nowhere: no input has it.
const OF_A_SHORT_FORM: &[Row] = &[(10, 2..=2, &["too many nodes in the result"]), (16, 3..=401, &["variable"])];

const OF_THE_BUFFER: &[Row] = &[(14, 0..=0, &["buffer"])];
const OF_THE_NAME: &[Row] = &[(17, 0..=0, &["name"])];

/// Of a list of reasons. Of 64 states 4,032 pairs can be told apart, so that a line after these is one too many.
const OF_THE_LIST: &[Row] = &[(
    21,
    0..=4032,
    &[
        "p out of range",
        "q out of range",
        "side above 1",
        "action out of range",
        "target out of range",
        "no step of the chart",
        "the same line twice",
        "the same pair by another move",
        "a state with itself",
        "relies on itself",
        "relies on a later line",
        "relies on a pair of no line",
        "one byte of a line",
        "two bytes",
        "three bytes",
        "four bytes",
    ],
)];

const OF_TWO_CHARTS: &[Row] =
    &[(18, 0..=0, &["states together"]), (19, 0..=0, &["action codes together"]), (20, 0..=0, &["transitions together"])];

/// Places between the first and the last that no input has. A complete formula has an odd number of bytes; where a variable has
/// an odd number of them before it, an operand comes after it, and at 400 that would be a node too many.
fn left_out(number: u8, input: Input, place: usize) -> bool {
    input == Input::Sheet && (number == 8 && place % 2 == 1 || number == 16 && place == 400)
}

/// The bytes within a triple that a refusal can tell.
fn bytes(number: u8) -> RangeInclusive<u8> {
    0..=if number == 6 { 2 } else { 0 }
}

/// Every refusal that a question can have.
fn can_occur(question: Question) -> Vec<(Input, &'static Row)> {
    let of_the_sheet = [(Input::Sheet, OF_THE_SHEET)];
    let of_a_short_form =
        [(Input::Sheet, OF_A_SHORT_FORM), (Input::BufferOrName, OF_THE_BUFFER), (Input::BufferOrName, OF_THE_NAME)];
    let of_two_charts =
        [(Input::Second, OF_A_CHART), (Input::BufferOrName, OF_TWO_CHARTS), (Input::BufferOrName, OF_THE_BUFFER)];
    let mut lists = vec![(Input::Chart, OF_A_CHART)];
    match question {
        Question::Marks | Question::Simulation | Question::Reasons => lists.push((Input::BufferOrName, OF_THE_BUFFER)),
        Question::Property | Question::BothSolutions => lists.extend(of_the_sheet),
        Question::ShortForm => lists.extend(of_the_sheet.into_iter().chain(of_a_short_form)),
        Question::Compare => lists.extend(of_two_charts),
        Question::CheckReasons => lists.push((Input::Sheet, OF_THE_LIST)),
        // nothing is lent that could be too short
        Question::EqualRows | Question::EqualPairs => {}
    }
    lists.into_iter().flat_map(|(input, rows)| rows.iter().map(move |row| (input, row))).collect()
}

/// As it heads a column: what its name says, in words.
fn name(question: Question) -> String {
    let name = format!("{question:?}");
    let words = name.chars().map(|c| if c.is_uppercase() { format!(" {}", c.to_lowercase()) } else { c.to_string() });
    words.collect::<String>().trim_start().to_string()
}

/// A count for each question.
type Counts = [u64; QUESTIONS.len()];

/// A cell for each question, as wide as its name.
fn line(title: &str, [a, b, c, d, e, f, g, h, i, j]: [String; QUESTIONS.len()]) {
    println!("{title:<52}{a:>10}{b:>12}{c:>10}{d:>12}{e:>9}{f:>9}{g:>15}{h:>16}{i:>12}{j:>13}");
}

fn row(title: &str, counts: Counts) {
    line(title, counts.map(|count| if count == 0 { "-".to_string() } else { count.to_string() }));
}

/// The sum of those refusals of each question that are wanted.
fn refusals(tally: &Tally, wanted: impl Fn(u8, Input, &str) -> bool) -> Counts {
    QUESTIONS.map(|question| {
        let met = tally.refused.iter().filter(|((q, number, input, what), _)| *q == question && wanted(*number, *input, what));
        met.map(|(_, count)| count).sum()
    })
}

fn different_inputs(tally: &Tally, question: Question) -> usize {
    tally.inputs.iter().filter(|(q, _)| *q == question).count()
}

/// Prints the counts.
pub fn show(tally: &Tally) {
    line("", QUESTIONS.map(name));
    row("asked", QUESTIONS.map(|q| tally.asked.get(&q).copied().unwrap_or(0)));
    row("different inputs", QUESTIONS.map(|q| different_inputs(tally, q) as u64));
    row("answered", QUESTIONS.map(|q| tally.answered.get(&q).copied().unwrap_or(0)));
    for number in 1..=21 {
        row(&format!("refused {number}"), refusals(tally, |n, _, _| n == number));
    }

    println!("\nby what stands at the place");
    let kinds: BTreeSet<_> = tally.refused.keys().map(|&(_, number, input, what)| (number, input, what)).collect();
    for kind in kinds {
        let (number, input, what) = kind;
        let title = format!("{number:>4}  {:<14}{what}", format!("{input:?}"));
        row(&title, refusals(tally, |n, i, w| (n, i, w) == kind));
    }

    println!("\ndifferent places, for 6 with the byte");
    let refusals: BTreeSet<_> = tally.places.iter().map(|&(_, number, input, _, _)| (number, input)).collect();
    for (number, input) in refusals {
        let from_to = |q| (q, number, input, 0, 0)..=(q, number, input, usize::MAX, u8::MAX);
        let counts = QUESTIONS.map(|q| tally.places.range(from_to(q)).count() as u64);
        row(&format!("{number:>4}  {input:?}"), counts);
    }

    println!("\nreached");
    for (what, asked, range) in reach::rows() {
        let of = |&asked| tally.reached.range((what, asked, *range.start())..=(what, asked, *range.end())).count();
        let reached: usize = asked.iter().map(of).sum();
        println!("{what:<52}{reached:>10} of {}", asked.len() * range.count());
    }
}

/// What was not met and must have been, and what was met and cannot be.
pub fn failings(tally: &Tally) -> Vec<String> {
    let mut failings = Vec::new();
    let (mut kinds, mut places) = (BTreeSet::new(), BTreeSet::new());
    for question in QUESTIONS {
        if different_inputs(tally, question) < LEAST_ASKED {
            failings.push(format!("fewer than {LEAST_ASKED} inputs ({question:?})"));
        }
        for (input, (number, range, whats)) in can_occur(question) {
            kinds.extend(whats.iter().map(|&what| (question, *number, input, what)));
            let can = range.clone().filter(|&place| !left_out(*number, input, place));
            places.extend(can.flat_map(|place| bytes(*number).map(move |byte| (question, *number, input, place, byte))));
        }
    }
    let met: BTreeSet<_> = tally.refused.keys().copied().collect();
    failings.extend(kinds.difference(&met).map(|kind| format!("not met: {kind:?}")));
    failings.extend(met.difference(&kinds).map(|kind| format!("met and cannot be: {kind:?}")));
    failings.extend(places.difference(&tally.places).map(|place| format!("not met at this place: {place:?}")));
    failings.extend(tally.places.difference(&places).map(|place| format!("met where it cannot be: {place:?}")));
    let not_reached = reach::must().filter(|value| !tally.reached.contains(value));
    failings.extend(not_reached.map(|value| format!("not reached: {value:?}")));
    failings
}
