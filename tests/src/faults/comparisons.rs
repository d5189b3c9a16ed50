//! Faults of the comparison.

use super::Fault;
use crate::archive::Question::Compare;
use crate::archive::MARGIN;
use crate::counts::Counts;
use crate::outcome::Outcome;

/// A comparison of 64 states together.
fn of_64(o: &Outcome) -> bool {
    o.answers(Compare) && o.states_together() == 64
}

/// How many states of the first and of the second are listed.
fn listed(o: &Outcome) -> [usize; 2] {
    o.lists().map(|list| list.len())
}

/// A comparison refused so.
fn refused(o: &Outcome, number: u64) -> bool {
    o.left.question == Compare && o.refuses(number)
}

/// A place beyond byte 3,000, or beyond triple 1,000.
fn is_far_on(o: &Outcome) -> bool {
    o.place() > if o.refuses(6) || o.refuses(7) { 1_000 } else { 3_000 }
}

/// The code of a refusal of the buffer, or of two charts together.
fn of_both(number: u64) -> u64 {
    number | 2 << 8
}

/// Two charts of one state each that loop, by other codes which stand at the same place.
fn unlike_loops(o: &Outcome) -> bool {
    let one = |counts: Counts| (counts.states, counts.actions, counts.transitions) == (1, 1, 1);
    o.answers(Compare) && one(o.counts()) && one(o.second()) && o.codes_together() == 2
}

pub const FAULTS: &[Fault] = &[
    Fault {
        name: "compare-by-place",
        what: "actions matched by their places in the two files, where two single states loop by other codes",
        when: unlike_loops,
        alter: |o| {
            o.left.buffer.part_mut()[..3].fill(0);
            o.left.numbers[..2].copy_from_slice(&[3, 0]);
        },
    },
    Fault {
        name: "compare-side-by-side-numbers",
        what: "the second's states numbered after the first's, where the first has 40 states and more",
        when: |o| o.answers(Compare) && o.states() >= 40 && listed(o)[1] > 0,
        alter: |o| {
            let (by, list) = (o.states() as u8, o.lists()[1].clone());
            o.left.buffer.part_mut()[list].iter_mut().for_each(|s| *s += by);
        },
    },
    Fault {
        name: "compare-first-list-alone",
        what: "no state of the second listed, where 30 and more of each have no partner",
        when: |o| o.answers(Compare) && listed(o).iter().all(|&count| count >= 30),
        alter: |o| {
            let list = o.lists()[1].clone();
            o.left.buffer.part_mut()[list.start - 1] = 0;
            o.left.numbers[0] = list.start as u64;
        },
    },
    Fault {
        name: "compare-not-rising",
        what: "the last two states of the second exchanged, where 40 and more are listed",
        when: |o| o.answers(Compare) && listed(o)[1] >= 40,
        alter: |o| {
            let end = o.filled();
            o.left.buffer.part_mut().swap(end - 2, end - 1);
        },
    },
    Fault {
        name: "compare-lists-exchanged",
        what: "the two counts exchanged, where only the first has states without a partner, 20 and more",
        when: |o| o.answers(Compare) && listed(o)[0] >= 20 && listed(o)[1] == 0,
        alter: |o| {
            let end = o.filled();
            o.left.buffer.part_mut()[1..end].rotate_right(1);
        },
    },
    Fault {
        name: "compare-one-state-missing",
        what: "the last state of the first, where it is state 62",
        when: |o| o.answers(Compare) && o.left.buffer.part()[o.lists()[0].clone()].last() == Some(&62),
        alter: |o| {
            let (end, filled) = (o.lists()[0].end, o.filled());
            let list = o.left.buffer.part_mut();
            list[1] -= 1;
            list.copy_within(end..filled, end - 1);
            o.left.numbers[0] -= 1;
        },
    },
    Fault {
        name: "compare-mark-of-another-pair",
        what: "the mark of a pair that is told apart a round earlier than the start states, where theirs is 50 and more",
        when: |o| o.answers(Compare) && o.left.buffer.part()[0] >= 50,
        alter: |o| o.left.buffer.part_mut()[0] -= 1,
    },
    Fault {
        name: "compare-beside-itself",
        what: "a mark for the start states of a chart of 32 states beside itself",
        when: |o| of_64(o) && o.left.chart.part() == o.left.second.part(),
        alter: |o| o.left.buffer.part_mut()[0] = 1,
    },
    Fault {
        name: "compare-middle-rounds",
        what: "the last state of the first, where all of the second have partners and 64 states take 33 to 62 rounds",
        when: |o| of_64(o) && (33..=62).contains(&o.rounds()) && listed(o)[0] > 0 && listed(o)[1] == 0,
        alter: |o| o.left.buffer.flip(o.lists()[0].end - 1),
    },
    Fault {
        name: "compare-63-rounds",
        what: "the rounds, one less, only where they are 63",
        when: |o| o.answers(Compare) && o.rounds() == 63,
        alter: |o| o.left.numbers[1] = 62,
    },
    Fault {
        name: "compare-rounds-of-the-first",
        what: "the rounds of the first alone, which is one state, where 50 and more are done",
        when: |o| o.answers(Compare) && o.states() == 1 && o.rounds() >= 50,
        alter: |o| o.left.numbers[1] = 0,
    },
    Fault {
        name: "compare-rounds-of-the-starts",
        what: "the mark of the start states as the rounds, where it is 0 and 20 rounds and more are done",
        when: |o| o.answers(Compare) && o.left.buffer.part()[0] == 0 && o.rounds() >= 20,
        alter: |o| o.left.numbers[1] = 0,
    },
    Fault {
        name: "compare-next-byte",
        what: "the byte after a list of 67, where the buffer is longer",
        when: |o| o.answers(Compare) && o.filled() == 67 && o.spare() > 0,
        alter: |o| o.left.buffer.flip(67),
    },
    Fault {
        name: "compare-rest-of-67",
        what: "byte 66 of a buffer, where three bytes are the list",
        when: |o| o.answers(Compare) && o.filled() == 3 && o.spare() >= 64,
        alter: |o| o.left.buffer.flip(66),
    },
    Fault {
        name: "compare-later-byte",
        what: "byte 4,000 beyond the list, where the buffer is over 5,000 too long",
        when: |o| o.answers(Compare) && o.spare() > 5_000,
        alter: |o| o.left.buffer.flip(o.filled() + 4_000),
    },
    Fault {
        name: "compare-around-the-buffer",
        what: "the bytes before and after a buffer of 67",
        when: |o| o.answers(Compare) && o.filled() == 67 && o.spare() == 0,
        alter: |o| o.left.buffer.flip_around(),
    },
    Fault {
        name: "compare-exact-refused",
        what: "a buffer of 67 bytes refused with 14 for a list of 67",
        when: |o| o.answers(Compare) && o.filled() == 67 && o.spare() == 0,
        alter: |o| o.code = of_both(14),
    },
    Fault {
        name: "compare-short-accepted",
        what: "a buffer of 66 bytes accepted for a list of 67",
        when: |o| refused(o, 14) && o.left.buffer.len() == 66,
        alter: |o| o.code = 0,
    },
    Fault {
        name: "compare-14-for-the-longest",
        what: "14 in every buffer of 66 bytes, as if all lists had 67",
        when: |o| o.answers(Compare) && o.left.buffer.len() == 66 && o.filled() < 66,
        alter: |o| o.code = of_both(14),
    },
    Fault {
        name: "compare-written",
        what: "the length without the second's count, where both lists have 10 states and more",
        when: |o| o.answers(Compare) && listed(o).iter().all(|&count| count >= 10),
        alter: |o| o.left.numbers[0] -= 1,
    },
    Fault {
        name: "compare-18-at-64",
        what: "18 for 64 states together, where the first has 63 of them",
        when: |o| of_64(o) && o.states() == 63,
        alter: |o| o.code = of_both(18),
    },
    Fault {
        name: "compare-19-for-shared-codes",
        what: "19 for 32 codes that both charts have, each counted twice",
        when: |o| o.answers(Compare) && o.actions() == 32 && o.second().actions == 32,
        alter: |o| o.code = of_both(19),
    },
    Fault {
        name: "compare-19-for-codes-in-use",
        what: "33 codes accepted, where no step bears any",
        when: |o| refused(o, 19) && o.transitions_together() == 0 && o.codes_together() == 33,
        alter: |o| o.code = 0,
    },
    Fault {
        name: "compare-20-at-1024",
        what: "20 for 1,024 transitions together, where the first has 1,000 and more",
        when: |o| o.answers(Compare) && o.transitions_together() == 1024 && o.transitions() >= 1000,
        alter: |o| o.code = of_both(20),
    },
    Fault {
        name: "compare-1025-accepted",
        what: "1,025 transitions accepted, where the second has all but one",
        when: |o| refused(o, 20) && o.transitions_together() == 1025 && o.transitions() == 1,
        alter: |o| o.code = 0,
    },
    Fault {
        name: "compare-order-of-18-and-19",
        what: "19 for 18 where there are too many states and too many codes",
        when: |o| refused(o, 18) && o.codes_together() > 32,
        alter: |o| o.code = of_both(19),
    },
    Fault {
        name: "compare-order-of-19-and-20",
        what: "20 for 19 where there are too many codes and too many transitions",
        when: |o| refused(o, 19) && o.transitions_together() > 1024,
        alter: |o| o.code = of_both(20),
    },
    Fault {
        name: "compare-order-of-20-and-14",
        what: "14 for 20 where there are too many transitions and no room",
        when: |o| refused(o, 20) && o.left.buffer.len() == 0,
        alter: |o| o.code = of_both(14),
    },
    Fault {
        name: "compare-order-of-the-charts",
        what: "the second's refusal where both lack a byte",
        when: |o| refused(o, 1) && o.input() == 0 && o.left.second.len() == 0,
        alter: |o| o.code = 1 | 3 << 8,
    },
    Fault {
        name: "compare-second-before-18",
        what: "18 where the second is bad, only at the byte after the longest chart",
        when: |o| refused(o, 8) && o.input() == 3 && o.place() == 3172,
        alter: |o| o.code = of_both(18),
    },
    Fault {
        name: "compare-input-of-the-second",
        what: "input 0 for a bad second, only beyond byte 3,000 or triple 1,000",
        when: |o| o.left.question == Compare && o.input() == 3 && is_far_on(o),
        alter: |o| o.code -= 3 << 8,
    },
    Fault {
        name: "compare-place-in-both",
        what: "the number of the second's triple counted on from the first's, only from 1,000 on",
        when: |o| refused(o, 7) && o.input() == 3 && o.place() >= 1_000 && o.transitions() > 0,
        alter: |o| o.code += (o.transitions() as u64) << 16,
    },
    Fault {
        name: "compare-input-of-19",
        what: "input 3 for 19, where the second alone has 32 codes",
        when: |o| refused(o, 19) && o.second().actions == 32,
        alter: |o| o.code = 19 | 3 << 8,
    },
    Fault {
        name: "compare-number-on-20",
        what: "the rounds written where there are 1,025 transitions",
        when: |o| refused(o, 20) && o.transitions_together() == 1025,
        alter: |o| o.left.numbers[1] ^= 1,
    },
    Fault {
        name: "compare-number-on-14",
        what: "the length written where the buffer is a byte too short for 67",
        when: |o| refused(o, 14) && o.left.buffer.len() == 66,
        alter: |o| o.left.numbers[0] = 67,
    },
    Fault {
        name: "compare-buffer-on-14",
        what: "the last byte of a buffer of 66 written where the list has 67",
        when: |o| refused(o, 14) && o.left.buffer.len() == 66,
        alter: |o| o.left.buffer.flip(65),
    },
    Fault {
        name: "compare-buffer-on-18",
        what: "the first byte of a long buffer written where there are 65 states",
        when: |o| refused(o, 18) && o.states_together() == 65 && o.left.buffer.len() > 1_000,
        alter: |o| o.left.buffer.flip(0),
    },
    Fault {
        name: "compare-second-written",
        what: "the last byte of the second chart, which is lent to be read, where 1,024 transitions are together",
        when: |o| o.answers(Compare) && o.transitions_together() == 1024,
        alter: |o| o.left.second.flip(o.left.second.len() - 1),
    },
    Fault {
        name: "compare-around-the-second",
        what: "the bytes before and after the second chart, where 40 rounds and more are done",
        when: |o| o.answers(Compare) && o.rounds() >= 40,
        alter: |o| o.left.second.flip_around(),
    },
    Fault {
        name: "compare-before-the-first",
        what: "the byte before the first chart, where the second has 60 states and more",
        when: |o| o.answers(Compare) && o.second().states >= 60,
        alter: |o| o.left.chart.bytes[MARGIN - 1] ^= 1,
    },
];
