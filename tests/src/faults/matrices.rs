//! Faults of marks and simulation.

use super::Fault;
use crate::archive::Question::{Marks, Simulation};
use crate::archive::MARGIN;
use crate::outcome::Outcome;

/// The byte of a pair of 64 states.
fn cell(p: usize, q: usize) -> usize {
    64 * p + q
}

/// Marks of 64 states.
fn marks_of_64(o: &Outcome) -> bool {
    o.answers(Marks) && o.states() == 64
}

pub const FAULTS: &[Fault] = &[
    Fault {
        name: "marks-later-byte",
        what: "a byte 1,000 beyond the matrix, where the buffer is over 3,000 too long",
        when: |o| o.answers(Marks) && o.spare() > 3_000,
        alter: |o| o.left.buffer.flip(o.filled() + 1_000),
    },
    Fault {
        name: "marks-last-byte",
        what: "the last byte of a buffer that is over 3,000 too long, for 64 states",
        when: |o| marks_of_64(o) && o.spare() > 3_000,
        alter: |o| o.left.buffer.flip(o.left.buffer.len() - 1),
    },
    Fault {
        name: "marks-byte-before",
        what: "the byte before a buffer of 4,096",
        when: |o| marks_of_64(o) && o.spare() == 0,
        alter: |o| o.left.buffer.bytes[MARGIN - 1] ^= 1,
    },
    Fault {
        name: "marks-byte-after",
        what: "the byte after a buffer of 4,096, where 40 rounds and more are done",
        when: |o| marks_of_64(o) && o.spare() == 0 && o.rounds() >= 40,
        alter: |o| o.left.buffer.flip_after(),
    },
    Fault {
        name: "marks-middle-rounds",
        what: "a mark of 64 states with 33 to 62 rounds",
        when: |o| marks_of_64(o) && (33..=62).contains(&o.rounds()),
        alter: |o| o.left.buffer.flip(cell(63, 62)),
    },
    Fault {
        name: "marks-20-rounds",
        what: "the rounds of 64 states, only where they are 20",
        when: |o| marks_of_64(o) && o.rounds() == 20,
        alter: |o| o.left.numbers[1] = 19,
    },
    Fault {
        name: "marks-63-rounds",
        what: "the rounds of 64 states, only where they are 63, the most",
        when: |o| marks_of_64(o) && o.rounds() == 63,
        alter: |o| o.left.numbers[1] = 62,
    },
    Fault {
        name: "marks-no-round",
        what: "the rounds of 64 equal states with 1,024 transitions",
        when: |o| marks_of_64(o) && o.rounds() == 0 && o.transitions() == 1024,
        alter: |o| o.left.numbers[1] = 1,
    },
    Fault {
        name: "marks-one-pair",
        what: "the mark of the pair (20, 41) of 64 states, where it is 30 or more",
        when: |o| marks_of_64(o) && o.left.buffer.part()[cell(20, 41)] >= 30,
        alter: |o| o.left.buffer.part_mut()[cell(20, 41)] -= 1,
    },
    Fault {
        name: "marks-diagonal",
        what: "the last diagonal byte of 63 states with 62 rounds",
        when: |o| o.answers(Marks) && o.states() == 63 && o.rounds() == 62,
        alter: |o| o.left.buffer.flip(63 * 63 - 1),
    },
    Fault {
        name: "marks-longest-chart",
        what: "a mark of the longest charts with 40 rounds and more",
        when: |o| o.answers(Marks) && o.of_longest() && o.rounds() >= 40,
        alter: |o| o.left.buffer.flip(cell(63, 63)),
    },
    Fault {
        name: "marks-states",
        what: "the number of states without its highest bit, for 64 states with 31 rounds",
        when: |o| marks_of_64(o) && o.rounds() == 31,
        alter: |o| o.left.numbers[0] = 0,
    },
    Fault {
        name: "marks-chart-written",
        what: "the last byte of the longest chart, which is lent to be read",
        when: |o| o.answers(Marks) && o.of_longest(),
        alter: |o| o.left.chart.flip(3171),
    },
    Fault {
        name: "marks-around-the-chart",
        what: "the bytes before and after the longest chart, where 10 rounds and more are done",
        when: |o| o.answers(Marks) && o.of_longest() && o.rounds() >= 10,
        alter: |o| o.left.chart.flip_around(),
    },
    Fault {
        name: "simulation-later-byte",
        what: "byte 4,999 beyond the matrix, where the buffer is at least 5,000 too long",
        when: |o| o.answers(Simulation) && o.spare() >= 5_000,
        alter: |o| o.left.buffer.flip(o.filled() + 4_999),
    },
    Fault {
        name: "simulation-next-byte",
        what: "the byte after the matrix of 64 states, where the buffer is longer",
        when: |o| o.answers(Simulation) && o.states() == 64 && o.spare() > 0,
        alter: |o| o.left.buffer.flip(4096),
    },
    Fault {
        name: "simulation-over-1000-rounds",
        what: "a pair, where over 1,000 rounds are done",
        when: |o| o.answers(Simulation) && o.rounds() > 1_000,
        alter: |o| o.left.buffer.flip(cell(31, 0)),
    },
    Fault {
        name: "simulation-600-rounds",
        what: "the rounds, where they are 600 to 699",
        when: |o| o.answers(Simulation) && (600..700).contains(&o.rounds()),
        alter: |o| o.left.numbers[1] += 1,
    },
    Fault {
        name: "simulation-not-1",
        what: "2 for 1 in the last byte of 63 states",
        when: |o| o.answers(Simulation) && o.states() == 63,
        alter: |o| o.left.buffer.part_mut()[63 * 63 - 1] = 2,
    },
    Fault {
        name: "simulation-longest-chart",
        what: "a pair of the longest charts with 50 rounds and more",
        when: |o| o.answers(Simulation) && o.of_longest() && o.rounds() >= 50,
        alter: |o| o.left.buffer.flip(cell(0, 63)),
    },
    Fault {
        name: "simulation-exact-refused",
        what: "a buffer of exactly 4,096 bytes refused with 14",
        when: |o| o.answers(Simulation) && o.states() == 64 && o.spare() == 0,
        alter: |o| o.code = 14 | 2 << 8,
    },
];
