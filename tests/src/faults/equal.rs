//! Faults of equal rows and equal pairs; and of relations that are held as words, in which marks and simulation slip (src/rows.rs).

use super::{leave, Fault};
use crate::archive::Question::{self, EqualPairs, EqualRows, Marks, Simulation};
use crate::archive::AROUND;
use crate::outcome::Outcome;
use crate::reach::relations::words;
use crate::reference::chart;
use crate::rows::{marks, simulation, Slip};

const ONE_PLACE: u64 = 1 << 16;

/// Equal rows of so many states.
fn rows_of(o: &Outcome, states: usize) -> bool {
    o.answers(EqualRows) && o.states() == states
}

/// Equal pairs of so many states, so many of which there are.
fn pairs_of(o: &Outcome, states: usize, pairs: u64) -> bool {
    o.answers(EqualPairs) && o.states() == states && o.left.numbers[0] == pairs
}

fn refused(o: &Outcome, question: Question, number: u64) -> bool {
    o.left.question == question && o.refuses(number)
}

pub const OF_ROWS: &[Fault] = &[
    Fault {
        name: "equal-row-63-of-63",
        what: "row 63 not 0 for 63 states: it holds them all",
        when: |o| rows_of(o, 63),
        alter: |o| o.left.rows[63] = u64::MAX >> 1,
    },
    Fault {
        name: "equal-row-1-of-1",
        what: "row 1 its own bit, for one state",
        when: |o| rows_of(o, 1),
        alter: |o| o.left.rows[1] = 2,
    },
    Fault {
        name: "equal-rows-from-n",
        what: "rows from n on not written, for 32 states in 32 classes",
        when: |o| rows_of(o, 32) && o.classes() == 32,
        alter: |o| leave(&mut o.left.rows[32..]),
    },
    Fault {
        name: "equal-row-63-not-written",
        what: "the last row not written, for 63 states in one class",
        when: |o| rows_of(o, 63) && o.classes() == 1,
        alter: |o| leave(&mut o.left.rows[63..]),
    },
    Fault {
        name: "equal-bit-63",
        what: "bit 63 of row 0 lost, where the two are the only equal states",
        when: |o| rows_of(o, 64) && o.only_pair() == Some((0, 63)),
        alter: |o| o.left.rows[0] = 1,
    },
    Fault {
        name: "equal-bit-0",
        what: "bit 0 of row 63 lost, where the two are the only equal states",
        when: |o| rows_of(o, 64) && o.only_pair() == Some((0, 63)),
        alter: |o| o.left.rows[63] = 1 << 63,
    },
    Fault {
        name: "equal-bit-n",
        what: "bit 63 of row 62, for 63 equal states",
        when: |o| rows_of(o, 63) && o.classes() == 1,
        alter: |o| o.left.rows[62] |= 1 << 63,
    },
    Fault {
        name: "equal-one-order",
        what: "a pair only in the row of the lower, where the two, 31 and 32, are the only equal states",
        when: |o| rows_of(o, 64) && o.only_pair() == Some((31, 32)),
        alter: |o| o.left.rows[32] = 1 << 32,
    },
    Fault {
        name: "equal-diagonal",
        what: "row 63 without its own bit, on a longest chart of 64 classes",
        when: |o| rows_of(o, 64) && o.of_longest() && o.classes() == 64,
        alter: |o| o.left.rows[63] = 0,
    },
    Fault {
        name: "equal-next-state",
        what: "the only equal state one further, of 64",
        when: |o| rows_of(o, 64) && o.only_pair() == Some((20, 41)),
        alter: |o| o.left.rows[20] = 1 << 20 | 1 << 42,
    },
    Fault {
        name: "equal-of-lowest",
        what: "rows only of the lowest states, and the others 0, of 64 equal states",
        when: |o| rows_of(o, 64) && o.classes() == 1,
        alter: |o| o.left.rows[1..].fill(0),
    },
    Fault {
        name: "equal-not",
        what: "the unequal states of row 5, where 64 states are in 2 classes",
        when: |o| rows_of(o, 64) && o.classes() == 2,
        alter: |o| o.left.rows[5] = !o.left.rows[5],
    },
    Fault {
        name: "equal-bytes-reversed",
        what: "the bytes of the rows in the other order, of 64 states in 63 classes",
        when: |o| rows_of(o, 64) && o.classes() == 63,
        alter: |o| o.left.rows = o.left.rows.map(u64::swap_bytes),
    },
    Fault {
        name: "equal-states-of-64",
        what: "63 for 64 states, of a longest chart in 40 classes and more",
        when: |o| rows_of(o, 64) && o.of_longest() && o.classes() >= 40,
        alter: |o| o.left.numbers[0] = 63,
    },
    Fault {
        name: "equal-classes-for-states",
        what: "the classes for the states, of 64 in 63",
        when: |o| rows_of(o, 64) && o.classes() == 63,
        alter: |o| o.left.numbers[0] = 63,
    },
    Fault {
        name: "equal-states-not-written",
        what: "the states not written, for one state",
        when: |o| rows_of(o, 1),
        alter: |o| leave(&mut o.left.numbers[..1]),
    },
    Fault {
        name: "equal-second-number",
        what: "a second number, as marks have, of 64 classes",
        when: |o| rows_of(o, 64) && o.classes() == 64,
        alter: |o| o.left.numbers[1] = 63,
    },
    Fault {
        name: "equal-row-64",
        what: "a 65th row after the others, of 64 states in 64 classes",
        when: |o| rows_of(o, 64) && o.classes() == 64,
        alter: |o| o.left.around[3][0] = 0,
    },
    Fault {
        name: "equal-before-rows",
        what: "the word before the rows, of 64 equal states",
        when: |o| rows_of(o, 64) && o.classes() == 1,
        alter: |o| o.left.around[2][AROUND - 1] ^= 1 << 63,
    },
    Fault {
        name: "equal-chart-written",
        what: "the last byte of the longest chart, which is lent to be read",
        when: |o| o.answers(EqualRows) && o.of_longest(),
        alter: |o| o.left.chart.flip(3171),
    },
];

pub const OF_PAIRS: &[Fault] = &[
    Fault {
        name: "pairs-without-diagonal",
        what: "each state with itself left out, where no two of 64 are equal",
        when: |o| pairs_of(o, 64, 64),
        alter: |o| o.left.numbers[0] = 0,
    },
    Fault {
        name: "pairs-one-order",
        what: "one order only, where two of 64 states are equal",
        when: |o| pairs_of(o, 64, 66),
        alter: |o| o.left.numbers[0] = 65,
    },
    Fault {
        name: "pairs-last-row",
        what: "the last row not counted, of 64 equal states",
        when: |o| pairs_of(o, 64, 64 * 64),
        alter: |o| o.left.numbers[0] -= 64,
    },
    Fault {
        name: "pairs-last-row-of-1",
        what: "the last row not counted, of one state",
        when: |o| pairs_of(o, 1, 1),
        alter: |o| o.left.numbers[0] = 0,
    },
    Fault {
        name: "pairs-row-63",
        what: "a row too many counted, of 63 equal states",
        when: |o| pairs_of(o, 63, 63 * 63),
        alter: |o| o.left.numbers[0] += 63,
    },
    Fault {
        name: "pairs-bit-63",
        what: "bit 63 of a row not counted, on a longest chart in 64 classes",
        when: |o| pairs_of(o, 64, 64) && o.of_longest(),
        alter: |o| o.left.numbers[0] = 63,
    },
    Fault {
        name: "pairs-in-12-bits",
        what: "the count without its highest bit, where all of 64 states are equal",
        when: |o| pairs_of(o, 64, 64 * 64),
        alter: |o| o.left.numbers[0] = 0,
    },
    Fault {
        name: "pairs-in-a-byte",
        what: "the count in a byte, where 16 states are equal",
        when: |o| pairs_of(o, 16, 256),
        alter: |o| o.left.numbers[0] = 0,
    },
    Fault {
        name: "pairs-unequal",
        what: "the unequal pairs, where 1,000 to 1,999 of 64 states are equal",
        when: |o| o.answers(EqualPairs) && o.states() == 64 && (1_000..2_000).contains(&o.left.numbers[0]),
        alter: |o| o.left.numbers[0] = 64 * 64 - o.left.numbers[0],
    },
    Fault {
        name: "pairs-second-number",
        what: "a second number, where two of 64 states are equal",
        when: |o| pairs_of(o, 64, 66),
        alter: |o| o.left.numbers[1] = 64,
    },
    Fault {
        name: "pairs-rows-written",
        what: "a row written where only the count is asked for, of a longest chart",
        when: |o| o.answers(EqualPairs) && o.of_longest(),
        alter: |o| o.left.rows[0] = 1,
    },
];

pub const OF_REFUSALS: &[Fault] = &[
    Fault {
        name: "equal-on-6",
        what: "row 63 written where the last triple of a longest chart is out of range",
        when: |o| refused(o, EqualRows, 6) && o.place() == 1023,
        alter: |o| o.left.rows[63] = 0,
    },
    Fault {
        name: "equal-on-8",
        what: "row 0 written where bytes are left over after a longest chart",
        when: |o| refused(o, EqualRows, 8) && o.place() == 3172,
        alter: |o| o.left.rows[0] ^= 1,
    },
    Fault {
        name: "equal-on-2",
        what: "the states written where there are 65",
        when: |o| refused(o, EqualRows, 2) && o.states() == 65,
        alter: |o| o.left.numbers[0] = 65,
    },
    Fault {
        name: "equal-on-a-null-chart",
        what: "all rows written where the chart is a null pointer",
        when: |o| refused(o, EqualRows, 1) && o.left.chart.null,
        alter: |o| o.left.rows = [0; 64],
    },
    Fault {
        name: "equal-with-14",
        what: "a buffer of none refused, as of marks, for 64 states",
        when: |o| rows_of(o, 64),
        alter: |o| o.code = 14 | 2 << 8,
    },
    Fault {
        name: "pairs-with-14",
        what: "a buffer of none refused, as of marks, for 64 equal states",
        when: |o| pairs_of(o, 64, 64 * 64),
        alter: |o| o.code = 14 | 2 << 8,
    },
    Fault {
        name: "pairs-on-7",
        what: "the count written where the last triple of 1,024 is not greater than the one before",
        when: |o| refused(o, EqualPairs, 7) && o.place() == 1023,
        alter: |o| o.left.numbers[0] = 0,
    },
    Fault {
        name: "pairs-place-of-4",
        what: "the place of 4, the byte before, at the last of 32 codes",
        when: |o| refused(o, EqualPairs, 4) && o.place() == 97,
        alter: |o| o.code -= ONE_PLACE,
    },
    Fault {
        name: "pairs-1025",
        what: "1,025 transitions accepted",
        when: |o| refused(o, EqualPairs, 5) && o.transitions() == 1025,
        alter: |o| o.code = 0,
    },
];

/// The table takes so many words.
fn needs(o: &Outcome, question: Question, count: usize) -> bool {
    o.answers(question) && words(o) == count
}

pub const OF_SIZES: &[Fault] = &[
    Fault {
        name: "marks-words-128",
        what: "the rounds, where the table takes 128 words",
        when: |o| needs(o, Marks, 128),
        alter: |o| o.left.numbers[1] += 1,
    },
    Fault {
        name: "marks-words-129",
        what: "a mark, where the table takes 129 words",
        when: |o| needs(o, Marks, 129),
        alter: |o| o.left.buffer.flip(1),
    },
    Fault {
        name: "marks-words-2112",
        what: "the last byte, where the table takes the most words",
        when: |o| needs(o, Marks, 2112),
        alter: |o| o.left.buffer.flip(4095),
    },
    Fault {
        name: "simulation-words-576",
        what: "a pair, where the table takes 576 words",
        when: |o| needs(o, Simulation, 576),
        alter: |o| o.left.buffer.flip(1),
    },
    Fault {
        name: "simulation-words-578",
        what: "the rounds, where the table takes 578 words",
        when: |o| needs(o, Simulation, 578),
        alter: |o| o.left.numbers[1] += 1,
    },
    Fault {
        name: "equal-words-576",
        what: "row 0, where the table takes 576 words",
        when: |o| needs(o, EqualRows, 576),
        alter: |o| o.left.rows[0] ^= 2,
    },
    Fault {
        name: "pairs-words-578",
        what: "the count, where the table takes 578 words",
        when: |o| needs(o, EqualPairs, 578),
        alter: |o| o.left.numbers[0] += 2,
    },
];

/// The answer of the same rounds by words, with a slip in them or none.
fn by_words(o: &Outcome, slip: Option<Slip>) -> Outcome {
    let chart = chart::read(o.left.chart.part()).expect("a chart that was answered");
    let settled = if o.left.question == Simulation { simulation(&chart, slip) } else { marks(&chart, slip) };
    let mut told = o.clone();
    match o.left.question {
        EqualRows => told.left.rows = settled.rows,
        EqualPairs => told.left.numbers[0] = settled.rows.iter().map(|row| row.count_ones() as u64).sum(),
        _ => {
            told.left.buffer.part_mut()[..settled.cells.len()].copy_from_slice(&settled.cells);
            told.left.numbers[1] = settled.rounds;
        }
    }
    told
}

/// A fault for each slip, which alters the answers that meet the condition, that the words give without it and not with it.
macro_rules! slips {
    ($($name:literal, $what:literal, $question:expr, $slip:expr, $only:expr;)*) => {
        &[$(Fault {
            name: $name,
            what: $what,
            when: |o| {
                let only: fn(&Outcome) -> bool = $only;
                o.answers($question) && only(o) && by_words(o, None) == *o && by_words(o, Some($slip)) != *o
            },
            alter: |o| *o = by_words(o, Some($slip)),
        }),*]
    };
}

fn of_64(o: &Outcome) -> bool {
    o.states() == 64
}

/// 64 states with over 32 rounds.
fn late(o: &Outcome) -> bool {
    of_64(o) && o.rounds() > 32
}

fn longest(o: &Outcome) -> bool {
    o.of_longest()
}

fn of_32_actions(o: &Outcome) -> bool {
    o.actions() == 32
}

pub const OF_WORDS: &[Fault] = slips! {
    "marks-row-unchanged", "the end where one row stays, with over 32 rounds", Marks, Slip::RowUnchanged, late;
    "marks-row-unchanged-of-4", "the end where one row stays, of four states", Marks, Slip::RowUnchanged, |o| o.states() == 4;
    "marks-state-63", "no mark in row 63 from round 33 on", Marks, Slip::NoMarks(63, 33), late;
    "marks-state-0", "no mark in row 0 in round 63", Marks, Slip::NoMarks(0, 63), late;
    "marks-after-32", "the end after 32 rounds", Marks, Slip::After(32), late;
    "marks-after-62", "the end after 62 rounds", Marks, Slip::After(62), late;
    "marks-in-place", "rows looked at that the same round has made, with over 32 rounds", Marks, Slip::InPlace, late;
    "marks-in-place-longest", "rows looked at that the same round has made, on a longest chart", Marks, Slip::InPlace, longest;
    "marks-made-0", "the class of state 0 never made, of 64 states", Marks, Slip::NotMade(0), of_64;
    "marks-made-63", "the class of state 63 never made, of 64 states", Marks, Slip::NotMade(63), of_64;
    "marks-first-made", "only the first class that a round made, of 64 states", Marks, Slip::OnlyFirstMade, of_64;
    "marks-one-side", "those not able keep those that are, on a longest chart", Marks, Slip::OneSide, longest;
    "marks-last-action", "the last of 32 actions not looked at", Marks, Slip::LastAction, of_32_actions;
    "marks-target-63", "steps to state 63 lost, with over 32 rounds", Marks, Slip::Target(63), late;
    "marks-sources-32", "steps from state 32 on lost, of 33 states", Marks, Slip::SourcesFrom(32), |o| o.states() == 33;
    "simulation-transposed", "rows and columns exchanged where states are struck, of 64", Simulation, Slip::Transposed, of_64;
    "simulation-transposed-rings", "the same with over 1,000 rounds", Simulation, Slip::Transposed, |o| o.rounds() > 1_000;
    "simulation-late-kept", "row 0 kept from round 900 on", Simulation, Slip::KeptFrom(0, 900), |o| o.rounds() > 900;
    "simulation-kept-from-63", "row 0 kept in round 63, the last", Simulation, Slip::KeptFrom(0, 63), |o| o.rounds() == 63;
    "simulation-after-255", "the end after 255 rounds", Simulation, Slip::After(255), |o| o.rounds() > 255;
    "simulation-after-1022", "the end after 1,022 rounds", Simulation, Slip::After(1_022), |o| o.rounds() > 1_022;
    "simulation-in-place", "rows looked at that the same round has made", Simulation, Slip::InPlace, |o| o.states() > 10;
    "simulation-first-fell", "what fell first from a row stands for all", Simulation, Slip::FirstFell, late;
    "simulation-lowest-fell", "only the lowest of what fell from a row", Simulation, Slip::LowestFell, of_64;
    "simulation-changed-63", "what falls from row 63 not followed", Simulation, Slip::NotChanged(63), late;
    "simulation-last-action", "the last of 32 actions not looked at", Simulation, Slip::LastAction, longest;
    "simulation-target-63", "steps to state 63 lost, with over 32 rounds", Simulation, Slip::Target(63), late;
    "equal-row-unchanged", "the end where one row stays, of 64 states", EqualRows, Slip::RowUnchanged, of_64;
    "equal-after-62", "the end after 62 rounds", EqualRows, Slip::After(62), of_64;
    "equal-made-63", "the class of state 63 never made", EqualRows, Slip::NotMade(63), of_64;
    "equal-one-side", "those not able keep those that are", EqualRows, Slip::OneSide, of_64;
    "equal-target-63", "steps to state 63 lost, on a longest chart", EqualRows, Slip::Target(63), longest;
    "pairs-row-unchanged", "the end where one row stays, of 64 states", EqualPairs, Slip::RowUnchanged, of_64;
    "pairs-after-62", "the end after 62 rounds", EqualPairs, Slip::After(62), of_64;
    "pairs-one-side", "those not able keep those that are", EqualPairs, Slip::OneSide, of_64;
    "pairs-last-action", "the last of 32 actions not looked at", EqualPairs, Slip::LastAction, of_32_actions;
};
