//! Faults of both solutions: halves that are not those of their name, or that stand where they should not; refusals; and what a table and
//! a memory can get wrong in one of the two.

use super::{leave, Fault};
use crate::archive::Question::{BothSolutions, Property};
use crate::archive::AROUND;
use crate::outcome::Outcome;
use crate::reach::sheets::{nested_left, nested_right, remaining};
use crate::reach::steps::words;
use crate::reference::sheet::Solution::{self, Greatest, Least};
use crate::steps::{solved, Slip};

const ONE_PLACE: u64 = 1 << 16;

fn answered(o: &Outcome) -> bool {
    o.answers(BothSolutions)
}

fn of_64(o: &Outcome) -> bool {
    answered(o) && o.states() == 64
}

/// 200 nodes on a longest chart.
fn largest(o: &Outcome) -> bool {
    answered(o) && o.nodes() == 200 && o.of_longest()
}

/// At most 11 nodes, for 64 states.
fn few_nodes(o: &Outcome) -> bool {
    of_64(o) && o.nodes() < 12
}

/// In how many states the two differ.
fn differing(o: &Outcome) -> u32 {
    o.differing().count_ones()
}

/// The rounds of the least and of the greatest.
fn rounds(o: &Outcome) -> [u64; 2] {
    o.halves().map(|[.., rounds]| rounds)
}

/// The two differ, and the kind byte says this.
fn of_kind(o: &Outcome, kind: u8) -> bool {
    answered(o) && o.kind() == Some(kind) && differing(o) > 0
}

fn refused(o: &Outcome, number: u64) -> bool {
    o.left.question == BothSolutions && o.refuses(number)
}

pub const OF_THE_HALVES: &[Fault] = &[
    Fault {
        name: "both-greatest-first",
        what: "the greatest first, on a longest chart",
        when: |o| answered(o) && o.of_longest() && differing(o) > 0,
        alter: |o| o.left.numbers.rotate_left(3),
    },
    Fault {
        name: "both-greatest-first-by-one",
        what: "the greatest first, where they differ in state 63 alone",
        when: |o| answered(o) && o.differing() == 1 << 63,
        alter: |o| o.left.numbers.rotate_left(3),
    },
    Fault {
        name: "both-kind-2-first",
        what: "the greatest first where the kind byte is 2, of 200 nodes",
        when: |o| of_kind(o, 2) && o.nodes() == 200,
        alter: |o| o.left.numbers.rotate_left(3),
    },
    Fault {
        name: "both-own-of-unsaid",
        what: "both halves the least where the kind byte is 0, of 64 states",
        when: |o| of_kind(o, 0) && of_64(o),
        alter: |o| o.set_second(o.halves()[0]),
    },
    Fault {
        name: "both-own-of-least",
        what: "both halves the least where the kind byte is 1, of one state",
        when: |o| of_kind(o, 1) && o.states() == 1,
        alter: |o| o.set_second(o.halves()[0]),
    },
    Fault {
        name: "both-own-of-greatest",
        what: "both halves the greatest where the kind byte is 2, of 63 states",
        when: |o| of_kind(o, 2) && o.states() == 63,
        alter: |o| o.set_first(o.halves()[1]),
    },
    Fault {
        name: "both-unsaid-as-before",
        what: "both halves the greatest where the kind byte is 0, with 20 rounds of it and more",
        when: |o| of_kind(o, 0) && rounds(o)[1] >= 20,
        alter: |o| o.set_first(o.halves()[1]),
    },
    Fault {
        name: "both-rounds-of-greatest",
        what: "the greatest's rounds for the least's, where these are one more",
        when: |o| of_64(o) && rounds(o)[0] == rounds(o)[1] + 1,
        alter: |o| o.left.numbers[2] = o.left.numbers[5],
    },
    Fault {
        name: "both-rounds-of-least",
        what: "the least's rounds for the greatest's, where these are 40 and more",
        when: |o| of_64(o) && rounds(o)[1] >= 40,
        alter: |o| o.left.numbers[5] = o.left.numbers[2],
    },
    Fault {
        name: "both-rounds-together",
        what: "the greatest's rounds counted on from the least's, where they are 64 together",
        when: |o| of_64(o) && rounds(o)[0] > 0 && rounds(o).iter().sum::<u64>() == 64,
        alter: |o| o.left.numbers[5] = 64,
    },
    Fault {
        name: "both-solved-once",
        what: "the least's rounds for the greatest's, where the two are the same states",
        when: |o| of_64(o) && differing(o) == 0 && rounds(o)[0] > rounds(o)[1] && rounds(o)[1] > 1,
        alter: |o| o.left.numbers[5] = o.left.numbers[2],
    },
    Fault {
        name: "both-least-64-rounds",
        what: "the least's rounds, where they are 64",
        when: |o| answered(o) && rounds(o)[0] == 64,
        alter: |o| o.left.numbers[2] = 63,
    },
    Fault {
        name: "both-greatest-64-rounds",
        what: "the greatest's rounds, where they are 64",
        when: |o| answered(o) && rounds(o)[1] == 64,
        alter: |o| o.left.numbers[5] = 63,
    },
    Fault {
        name: "both-37-rounds",
        what: "the greatest's rounds of 200 nodes on a longest chart, only where they are 37",
        when: |o| largest(o) && rounds(o)[1] == 37,
        alter: |o| o.left.numbers[5] = 38,
    },
    Fault {
        name: "both-no-round",
        what: "a round of the greatest, where it has all 64 states from the start",
        when: |o| of_64(o) && o.left.numbers[4..] == [64, 0],
        alter: |o| o.left.numbers[5] = 1,
    },
    Fault {
        name: "both-count-of-greatest",
        what: "the greatest's count for the least's, where they differ in one of 64 states",
        when: |o| of_64(o) && differing(o) == 1,
        alter: |o| o.left.numbers[1] = o.left.numbers[4],
    },
    Fault {
        name: "both-count-of-least",
        what: "the least's count for the greatest's, where they differ in all of 64 states",
        when: |o| of_64(o) && differing(o) == 64,
        alter: |o| o.left.numbers[4] = o.left.numbers[1],
    },
    Fault {
        name: "both-count-of-63",
        what: "the greatest's count of 63 states in 64, after 30 rounds of the least and more",
        when: |o| of_64(o) && o.left.numbers[4] == 63 && rounds(o)[0] >= 30,
        alter: |o| o.left.numbers[4] = 64,
    },
    Fault {
        name: "both-greatest-from-least",
        what: "the greatest sought from the least on, after 30 rounds of that and more",
        when: |o| answered(o) && differing(o) > 0 && rounds(o)[0] >= 30,
        alter: |o| {
            let [[word, count, _], _] = o.halves();
            o.set_second([word, count, 0]);
        },
    },
    Fault {
        name: "both-least-from-greatest",
        what: "the least sought from the greatest on, where the least has one state",
        when: |o| answered(o) && differing(o) > 0 && o.left.numbers[1] == 1 && o.states() > 50,
        alter: |o| {
            let [_, [word, count, _]] = o.halves();
            o.set_first([word, count, 0]);
        },
    },
    Fault {
        name: "both-bit-63-of-least",
        what: "bit 63 of the least lost, with 50 rounds and more",
        when: |o| answered(o) && o.left.numbers[0] >> 63 == 1 && rounds(o)[0] >= 50,
        alter: |o| o.left.numbers[0] ^= 1 << 63,
    },
    Fault {
        name: "both-bit-63-of-greatest",
        what: "bit 63 of the greatest lost, where the least has it not",
        when: |o| answered(o) && o.differing() >> 63 == 1,
        alter: |o| o.left.numbers[3] ^= 1 << 63,
    },
    Fault {
        name: "both-bit-n",
        what: "bit 63 of the greatest set, for 63 states that all satisfy",
        when: |o| answered(o) && o.states() == 63 && o.left.numbers[4] == 63,
        alter: |o| o.left.numbers[3] |= 1 << 63,
    },
];

pub const OF_THE_ARRAYS: &[Fault] = &[
    Fault {
        name: "both-least-alone",
        what: "only the first array written, where the two are the same and 60 rounds and more are done",
        when: |o| of_64(o) && differing(o) == 0 && rounds(o).iter().sum::<u64>() >= 60,
        alter: |o| leave(&mut o.left.numbers[3..]),
    },
    Fault {
        name: "both-greatest-alone",
        what: "only the second array written, where the kind byte is 2 and 200 nodes",
        when: |o| answered(o) && o.kind() == Some(2) && o.nodes() == 200,
        alter: |o| leave(&mut o.left.numbers[..3]),
    },
    Fault {
        name: "both-in-one-array",
        what: "the greatest written over the least, on a chart of 1,024 triples",
        when: |o| answered(o) && o.transitions() == 1024 && differing(o) > 0,
        alter: |o| {
            o.set_first(o.halves()[1]);
            leave(&mut o.left.numbers[3..]);
        },
    },
    Fault {
        name: "both-one-after-the-other",
        what: "the greatest written right after the least, on a longest chart",
        when: |o| answered(o) && o.of_longest(),
        alter: |o| {
            let [_, greatest] = o.halves();
            o.left.around[1][..3].copy_from_slice(&greatest);
            leave(&mut o.left.numbers[3..]);
        },
    },
    Fault {
        name: "both-rounds-not-written",
        what: "the least's rounds not written, where they are 0 and the greatest's 50 and more",
        when: |o| answered(o) && rounds(o)[0] == 0 && rounds(o)[1] >= 50,
        alter: |o| leave(&mut o.left.numbers[2..3]),
    },
    Fault {
        name: "both-after-least",
        what: "a fourth number after the least's, where its rounds are 64",
        when: |o| answered(o) && rounds(o)[0] == 64,
        alter: |o| o.left.around[1][0] = 0,
    },
    Fault {
        name: "both-before-least",
        what: "the word before the least's, of 200 nodes on a longest chart",
        when: largest,
        alter: |o| o.left.around[0][AROUND - 1] ^= 1,
    },
    Fault {
        name: "both-after-greatest",
        what: "a fourth number after the greatest's, where its rounds are 50 and more",
        when: |o| answered(o) && rounds(o)[1] >= 50,
        alter: |o| o.left.around[2][0] = 0,
    },
    Fault {
        name: "both-before-greatest",
        what: "the highest byte of the word before the greatest's, of 64 states that all differ",
        when: |o| of_64(o) && differing(o) == 64,
        alter: |o| o.left.around[1][AROUND - 1] ^= 1 << 63,
    },
    Fault {
        name: "both-second-of-a-property",
        what: "the second array written by a property, of kind 0 and 200 nodes",
        when: |o| o.answers(Property) && o.kind() == Some(0) && o.nodes() == 200,
        alter: |o| o.set_second(o.halves()[0]),
    },
    Fault {
        name: "both-kind-left-in-the-sheet",
        what: "the kind byte 2 in a lent sheet of 200 nodes where it was 1",
        when: |o| answered(o) && o.kind() == Some(1) && o.nodes() == 200,
        alter: |o| o.left.sheet.part_mut()[1] = 2,
    },
    Fault {
        name: "both-kind-put-back",
        what: "the kind byte 1 in a lent sheet where it was 0, after 20 rounds of the least and more",
        when: |o| answered(o) && o.kind() == Some(0) && rounds(o)[0] >= 20,
        alter: |o| o.left.sheet.part_mut()[1] = 1,
    },
    Fault {
        name: "both-high-code",
        what: "the highest bit of the code returned, where 64 rounds are done",
        when: |o| answered(o) && rounds(o).contains(&64),
        alter: |o| o.code = 1 << 63,
    },
];

pub const OF_REFUSALS: &[Fault] = &[
    Fault {
        name: "both-on-13",
        what: "both arrays written where the formula of a sheet is refused with 13 beyond byte 390",
        when: |o| refused(o, 13) && o.place() > 390,
        alter: |o| o.left.numbers = [0; 6],
    },
    Fault {
        name: "both-on-6",
        what: "the second array written where the last triple of a longest chart is out of range",
        when: |o| refused(o, 6) && o.place() == 1023,
        alter: |o| o.set_second([0; 3]),
    },
    Fault {
        name: "both-on-9",
        what: "the least's word written where the kind is above 2",
        when: |o| refused(o, 9) && o.place() == 1,
        alter: |o| o.left.numbers[0] = 0,
    },
    Fault {
        name: "both-on-8",
        what: "the greatest's rounds written where bytes are left over after a sheet of 402",
        when: |o| refused(o, 8) && o.input() == 1 && o.place() == 402,
        alter: |o| o.left.numbers[5] ^= 1,
    },
    Fault {
        name: "both-on-a-null-chart",
        what: "the word after the least's written where the chart is a null pointer",
        when: |o| refused(o, 1) && o.left.chart.null,
        alter: |o| o.left.around[1][0] ^= 1,
    },
    Fault {
        name: "both-unsaid-refused",
        what: "9 for kind 0, of 200 nodes",
        when: |o| answered(o) && o.kind() == Some(0) && o.nodes() == 200,
        alter: |o| o.code = 9 | 1 << 8 | ONE_PLACE,
    },
    Fault {
        name: "both-kind-3",
        what: "kind 3 accepted, of a good sheet",
        when: |o| refused(o, 9) && o.place() == 1 && o.kind() == Some(3) && o.nodes() == 6,
        alter: |o| o.code = 0,
    },
    Fault {
        name: "both-sheet-first",
        what: "the sheet's equation count judged before the chart",
        when: |o| o.left.question == BothSolutions && o.code != 0 && o.input() == 0 && o.left.sheet.part().first() == Some(&0),
        alter: |o| o.code = 9 | 1 << 8,
    },
    Fault {
        name: "both-left-over-256",
        what: "a good sheet and 256 bytes accepted",
        when: |o| refused(o, 8) && o.input() == 1 && o.left.sheet.len() == o.place() + 256,
        alter: |o| o.code = 0,
    },
    Fault {
        name: "both-remaining-1",
        what: "a formula of 199 nodes accepted while one remains",
        when: |o| refused(o, 13) && remaining(o) == Some(1) && o.nodes() == 200,
        alter: |o| o.code = 0,
    },
    Fault {
        name: "both-place-of-12",
        what: "the place of 12, the diamond's in place of its action byte's, at 402",
        when: |o| refused(o, 12) && o.place() == 402,
        alter: |o| o.code -= ONE_PLACE,
    },
    Fault {
        name: "both-order-of-13-and-11",
        what: "11 for 13 where a byte above 6 follows a complete formula",
        when: |o| refused(o, 13) && o.left.sheet.part().get(o.place()) == Some(&9),
        alter: |o| o.code -= 2,
    },
    Fault {
        name: "both-variable-refused",
        what: "16 as of a short form, where the formula is X alone",
        when: |o| answered(o) && o.left.sheet.part()[2..] == [1, 0],
        alter: |o| o.code = 16 | 1 << 8 | 3 << 16,
    },
];

/// A solution with a slip in it.
fn with(o: &Outcome, solution: Solution, slip: Slip) -> [u64; 3] {
    solved(o.left.chart.part(), o.left.sheet.part(), solution, Some(slip))
}

/// A fault for each slip in one of the two, which alters the answers that meet the condition and that the slip alters.
macro_rules! slips {
    ($($name:literal, $what:literal, $solution:expr, $slip:expr, $only:expr;)*) => {
        &[$(Fault {
            name: $name,
            what: $what,
            when: |o| {
                let only: fn(&Outcome) -> bool = $only;
                answered(o) && only(o) && with(o, $solution, $slip) != o.halves()[$solution as usize]
            },
            alter: |o| {
                let solution = with(o, $solution, $slip);
                if $solution == Least { o.set_first(solution) } else { o.set_second(solution) }
            },
        }),*]
    };
}

pub const OF_THE_TABLE: &[Fault] = slips! {
    "both-without-63", "the greatest sought from all states but 63", Greatest, Slip::Without63, of_64;
    "both-without-63-largest", "the greatest sought from all states but 63, of 200 nodes", Greatest, Slip::Without63, largest;
    "both-results-left", "the least's results in the greatest's memory, of 200 nodes", Greatest, Slip::ResultsLeft, largest;
    "both-results-left-of-two", "the least's results in the greatest's memory, two nodes", Greatest, Slip::ResultsLeft, |o| o.nodes() == 2;
    "both-operands-left", "the least's operands in the greatest's memory, of 200 nodes", Greatest, Slip::OperandsLeft, largest;
    "both-operands-left-of-64", "the least's operands in the greatest's memory, of 64 states", Greatest, Slip::OperandsLeft, few_nodes;
    "both-table-last-triple", "the greatest's table lacks the last of 1,024", Greatest, Slip::LastTriple, |o| o.transitions() == 1024;
    "both-table-last-of-63", "the least's table lacks the last triple of state 63", Least, Slip::LastOf(63), |o| o.of_longest();
    "both-table-every-but-last", "255 without the last of 32 actions, in the greatest", Greatest, Slip::EveryLacksLast, |o| o.of_longest();
    "both-table-row-of-all", "the row of all for each of 32 actions, in the least", Least, Slip::RowOfAll, |o| o.of_longest();
    "both-table-target-63", "target 63 lost, in the greatest", Greatest, Slip::TargetsFrom(63), of_64;
    "both-memory-of-diamond", "what a diamond remembers, though its operand shrank, in the greatest", Greatest, Slip::TakenOf(5), largest;
    "both-memory-of-box", "what a box remembers, though the others shrank, in the least", Least, Slip::TakenOf(6), largest;
    "both-memory-kept", "the memory of the call before, in the least", Least, Slip::Kept, largest;
    "both-memory-new-in-64th", "new members not walked in the least's 64th application only", Least, Slip::NewIn(63), |o| o.nodes() == 200;
    "both-memory-lost-in-second", "what was remembered lost in the greatest's second application", Greatest, Slip::LostIn(1), largest;
    "both-memory-in-only-row", "the greatest's memory in the row of all, without actions", Greatest, Slip::InLastRow, |o| o.actions() == 0;
};

/// Table and memory take so many words.
fn needs(o: &Outcome, count: u64) -> bool {
    answered(o) && words(o) == count
}

pub const OF_SIZES: &[Fault] = &[
    Fault {
        name: "both-words-128",
        what: "the greatest's word, where table and memory take 128 words",
        when: |o| needs(o, 128),
        alter: |o| o.left.numbers[3] ^= 1,
    },
    Fault {
        name: "both-words-129",
        what: "the least's rounds, where table and memory take 129 words",
        when: |o| needs(o, 129),
        alter: |o| o.left.numbers[2] += 1,
    },
    Fault {
        name: "both-words-1024",
        what: "the least's word, where table and memory take 1,024 words",
        when: |o| needs(o, 1024),
        alter: |o| o.left.numbers[0] ^= 1,
    },
    Fault {
        name: "both-words-1025",
        what: "the greatest's rounds, where table and memory take 1,025 words",
        when: |o| needs(o, 1025),
        alter: |o| o.left.numbers[5] += 1,
    },
    Fault {
        name: "both-words-2916",
        what: "the greatest's word, where table and memory take the most words",
        when: |o| needs(o, 2916),
        alter: |o| o.left.numbers[3] ^= 1 << 63,
    },
    Fault {
        name: "both-nested-left",
        what: "the least's word, where 99 operators are nested in left operands",
        when: |o| answered(o) && nested_left(o) == Some(99),
        alter: |o| o.left.numbers[0] ^= 1,
    },
    Fault {
        name: "both-nested-right",
        what: "the greatest's word, where 99 operators are nested in right operands",
        when: |o| answered(o) && nested_right(o) == Some(99),
        alter: |o| o.left.numbers[3] ^= 1,
    },
];
