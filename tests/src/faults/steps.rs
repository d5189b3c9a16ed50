//! Faults of the table of steps and of what each diamond remembers: what a property is where these slip (src/steps.rs), on few charts
//! and sheets only; and faults at sizes where more words are needed. One memory for all diamonds and boxes of an action would be no
//! fault: what an action's step gives for a set is the same at every place.

use super::Fault;
use crate::archive::Question::Property;
use crate::outcome::Outcome;
use crate::reach::steps::words;
use crate::steps::{own, solved, triples, Slip};

/// The property with a slip in it.
fn with(o: &Outcome, slip: Slip) -> [u64; 3] {
    let sheet = o.left.sheet.part();
    solved(o.left.chart.part(), sheet, own(sheet), Some(slip))
}

/// A fault for each slip, which alters the answers that meet the condition and that the slip alters.
macro_rules! slips {
    ($($name:literal, $what:literal, $slip:expr, $only:expr;)*) => {
        &[$(Fault {
            name: $name,
            what: $what,
            when: |o| {
                let only: fn(&Outcome) -> bool = $only;
                o.answers(Property) && only(o) && with(o, $slip) != o.left.numbers[..3]
            },
            alter: |o| o.set_first(with(o, $slip)),
        }),*]
    };
}

/// As many states, actions and transitions as can be.
fn longest(o: &Outcome) -> bool {
    o.of_longest()
}

fn of_64(o: &Outcome) -> bool {
    o.states() == 64
}

/// 200 nodes on such a chart.
fn largest(o: &Outcome) -> bool {
    o.of_longest() && o.nodes() == 200
}

fn greatest(o: &Outcome) -> bool {
    o.kind() == Some(2)
}

fn long_sheet(o: &Outcome) -> bool {
    o.left.sheet.len() > 300
}

pub const OF_THE_TABLE: &[Fault] = slips! {
    "table-last-triple", "a table that lacks the last triple, of 1,024", Slip::LastTriple, |o| o.transitions() == 1024;
    "table-only-triple", "a table that lacks the last triple, where it is the only one", Slip::LastTriple, |o| o.transitions() == 1;
    "table-last-of-each", "a table that lacks the last triple of each state", Slip::LastOfEach, longest;
    "table-last-of-0", "a table that lacks the last triple of state 0", Slip::LastOf(0), longest;
    "table-last-of-62", "a table that lacks the last triple of state 62", Slip::LastOf(62), longest;
    "table-last-of-63", "a table that lacks the last triple of state 63", Slip::LastOf(63), longest;
    "table-first-of-next", "the triple at which the walk of a state stops is not walked", Slip::FirstOfNext, longest;
    "table-after-rest", "a state without steps ends the walk, of 64 states", Slip::AfterRest, of_64;
    "table-every-is-first", "255 as the first of 32 actions only", Slip::EveryIsFirst, |o| o.actions() == 32;
    "table-every-is-last", "255 as the last of 32 actions only", Slip::EveryIsLast, |o| o.actions() == 32;
    "table-every-but-first", "255 without the first of 32 actions", Slip::EveryLacksFirst, longest;
    "table-every-but-last", "255 without the last of 32 actions", Slip::EveryLacksLast, longest;
    "table-swapped", "source and target exchanged, on a longest chart", Slip::Swapped, longest;
    "table-swapped-200", "source and target exchanged, for 200 nodes", Slip::Swapped, |o| o.nodes() == 200;
    "table-row-before", "the row of the action before, of 32", Slip::RowBefore, longest;
    "table-row-before-of-2", "the row of the action before, of two", Slip::RowBefore, |o| o.actions() == 2;
    "table-row-after", "the row of the action after, of 32", Slip::RowAfter, longest;
    "table-row-of-all", "the row of all for each of 32 actions", Slip::RowOfAll, longest;
    "table-rows-of-m", "rows of m words, where n is one more", Slip::RowsOfM, |o| o.states() == o.actions() + 1;
    "table-rows-of-m-64", "rows of 32 words, of 64 states", Slip::RowsOfM, longest;
    "table-sources-32", "sources from 32 on lost, of 33 states", Slip::SourcesFrom(32), |o| o.states() == 33;
    "table-targets-32", "targets from 32 on lost, of 33 states", Slip::TargetsFrom(32), |o| o.states() == 33;
    "table-source-63", "source 63 lost, on a longest chart", Slip::SourcesFrom(63), longest;
    "table-target-63", "target 63 lost, on a longest chart", Slip::TargetsFrom(63), longest;
    "table-source-in-32", "sources 32 apart in one bit", Slip::SourceIn32, longest;
    "table-last-action", "the last of 32 actions lost", Slip::LastAction, longest;
    "table-only-action", "the only action lost, but for 255", Slip::LastAction, |o| o.actions() == 1 && of_64(o);
};

pub const OF_THE_MEMORY: &[Fault] = slips! {
    "memory-of-diamond", "what a diamond remembers, though its operand shrank", Slip::TakenOf(5), |o| largest(o) && greatest(o);
    "memory-of-box", "what a box remembers, though the others shrank", Slip::TakenOf(6), |o| largest(o) && !greatest(o);
    "memory-of-few-nodes", "what a diamond remembers, though its operand shrank, of three nodes", Slip::TakenOf(5), |o| o.nodes() == 3;
    "memory-one-for-all", "one memory for all places, of 200 nodes", Slip::OneForAll, |o| o.nodes() == 200;
    "memory-one-for-two", "one memory for two places, of few nodes", Slip::OneForAll, |o| o.nodes() < 6;
    "memory-place-as-byte", "one memory for places 256 apart", Slip::PlaceAsByte, long_sheet;
    "memory-operand-of-box", "a box remembers its operand for the others", Slip::OperandOfBox, largest;
    "memory-word-of-box", "a box remembers its word for the diamond's", Slip::WordOfBox, largest;
    "memory-kept", "the memory of the call before, of the same sheet", Slip::Kept, largest;
    "memory-kept-few-nodes", "the memory of the call before, of three nodes", Slip::Kept, |o| o.nodes() == 3;
    "memory-lost-in-second", "what was remembered lost in the second application only", Slip::LostIn(1), largest;
    "memory-lost-in-64th", "what was remembered lost in the 64th application only", Slip::LostIn(63), |o| o.nodes() == 200;
    "memory-lost-from-40th", "what was remembered lost from the 40th application on", Slip::LostFrom(39), long_sheet;
    "memory-new-in-second", "new members not walked in the second application only", Slip::NewIn(1), largest;
    "memory-new-in-64th", "new members not walked in the 64th application only", Slip::NewIn(63), |o| o.nodes() == 200;
    "memory-new-from-40th", "new members not walked from the 40th application on", Slip::NewFrom(39), long_sheet;
    "memory-new-63", "state 63 not walked where it is new", Slip::New63, |o| o.nodes() == 200;
    "memory-operand-alone", "the operand remembered anew, its result not", Slip::OperandAlone, largest;
    "memory-result-alone", "the result remembered anew, its operand not", Slip::ResultAlone, largest;
    "memory-too-close", "a result where the next diamond's operand is", Slip::TooClose, largest;
    "memory-in-last-row", "the memory in the table's last row, on a longest chart", Slip::InLastRow, longest;
    "memory-in-only-row", "the memory in the row of all, where there is no action", Slip::InLastRow, |o| o.actions() == 0;
};

/// Table and memory take so many words.
fn needs(o: &Outcome, count: u64) -> bool {
    o.answers(Property) && words(o) == count
}

/// No state between 0 and 63 has a step, and 63 has one.
fn rests_between(triples: &[[u8; 3]]) -> bool {
    triples.last().is_some_and(|last| last[0] == 63) && triples.iter().all(|&[source, ..]| [0, 63].contains(&source))
}

pub const OF_SIZES: &[Fault] = &[
    Fault {
        name: "words-128",
        what: "the word, where table and memory take 128 words",
        when: |o| needs(o, 128),
        alter: |o| o.left.numbers[0] ^= 1,
    },
    Fault {
        name: "words-129",
        what: "the rounds, where table and memory take 129 words",
        when: |o| needs(o, 129),
        alter: |o| o.left.numbers[2] += 1,
    },
    Fault {
        name: "words-1024",
        what: "the word, where table and memory take 1,024 words",
        when: |o| needs(o, 1024),
        alter: |o| o.left.numbers[0] ^= 1,
    },
    Fault {
        name: "words-1025",
        what: "the rounds, where table and memory take 1,025 words",
        when: |o| needs(o, 1025),
        alter: |o| o.left.numbers[2] += 1,
    },
    Fault {
        name: "words-2916",
        what: "the word, where table and memory take the most words",
        when: |o| needs(o, 2916),
        alter: |o| o.left.numbers[0] ^= 1 << 63,
    },
    Fault {
        name: "rest-before-63",
        what: "the word, where states 1 to 62 of 64 rest and 63 does not",
        when: |o| o.answers(Property) && of_64(o) && rests_between(triples(o.left.chart.part())),
        alter: |o| o.left.numbers[0] ^= 1 << 63,
    },
];
