//! Faults of a triple's number and of the byte within it. The check against the reference must notice each, and so must the one
//! against the bytes of the file (src/lines.rs).

use super::Fault;
use crate::archive::Question::{BothSolutions, Marks, Property, ShortForm, Simulation};
use crate::counts::{byte, Counts};
use crate::outcome::Outcome;

/// Tells another place and another byte.
fn tell(o: &mut Outcome, place: usize, byte: u64) {
    o.code = o.code & 0xffff | (place as u64) << 16 | byte << 48;
}

fn tell_place(o: &mut Outcome, place: usize) {
    tell(o, place, o.byte());
}

fn tell_byte(o: &mut Outcome, byte: u64) {
    tell(o, o.place(), byte);
}

fn counts(o: &Outcome) -> Counts {
    Counts::of(o.refused_chart())
}

/// A refusal of a chart with as many states, actions and triples as can be.
fn of_longest(o: &Outcome) -> bool {
    let counts = counts(o);
    (counts.states, counts.actions, counts.transitions) == (64, 32, 1024)
}

/// 6 at this byte of a triple.
fn out_of_range(o: &Outcome, byte: u64) -> bool {
    o.refuses(6) && o.byte() == byte
}

/// The byte of the last triple of a longest chart.
fn at_the_last(o: &Outcome) -> bool {
    of_longest(o) && o.place() == 1023
}

/// 1 within a triple, which lacks this byte and has those before.
fn lacks(o: &Outcome, byte: usize) -> bool {
    let first = counts(o).first_triple();
    o.refuses(1) && o.input() != 1 && o.place() >= first && (o.place() - first) % 3 == byte
}

/// The second chart of two is refused.
fn of_second(o: &Outcome, number: u64) -> bool {
    o.refuses(number) && o.input() == 3
}

/// A byte of the refused triple, or of one so many after it.
fn at(o: &Outcome, later: usize, within: usize) -> usize {
    byte(o.refused_chart(), counts(o).first_triple() + 3 * (o.place() + later) + within)
}

/// A byte of the triple before the refused one, which is not the first.
fn before(o: &Outcome, within: usize) -> usize {
    byte(o.refused_chart(), counts(o).first_triple() + 3 * (o.place() - 1) + within)
}

/// 6 for the action or target of a late triple whose source is smaller than that of the one before.
fn both_6_and_7(o: &Outcome) -> bool {
    o.refuses(6) && o.place() > 1_000 && o.byte() > 0 && at(o, 0, 0) < before(o, 0)
}

/// The refused triple has the source of the one before and a smaller action.
fn smaller_by_action(o: &Outcome) -> bool {
    at(o, 0, 0) == before(o, 0) && at(o, 0, 1) < before(o, 1)
}

/// 7, and the source of the next triple is out of range.
fn next_out_of_range(o: &Outcome) -> bool {
    o.refuses(7) && o.place() + 1 < counts(o).transitions && at(o, 1, 0) >= counts(o).states
}

/// 6, and the next triple's source is smaller, which is in range.
fn next_smaller(o: &Outcome) -> bool {
    o.refuses(6) && o.place() + 1 < counts(o).transitions && at(o, 1, 0) < at(o, 0, 0)
}

pub const FAULTS: &[Fault] = &[
    Fault {
        name: "line-6-byte-of-the-file",
        what: "the byte of the file in place of the triple's number, 6 in small charts",
        when: |o| o.refuses(6) && counts(o).transitions == 16,
        alter: |o| tell_place(o, o.line_at()),
    },
    Fault {
        name: "line-7-byte-of-the-file",
        what: "the triple's first byte in place of its number, 7 in the last triple of a longest chart",
        when: |o| o.refuses(7) && at_the_last(o),
        alter: |o| tell_place(o, o.line_at()),
    },
    Fault {
        name: "line-6-as-before",
        what: "6 as it was told before there were lines, only at the last byte of a longest chart",
        when: |o| out_of_range(o, 2) && at_the_last(o),
        alter: |o| tell(o, o.line_at(), 0),
    },
    Fault {
        name: "line-byte-of-the-triples",
        what: "bytes counted from the first triple, 6 at the action of triple 1",
        when: |o| out_of_range(o, 1) && o.place() == 1,
        alter: |o| tell_place(o, 3 * o.place() + 1),
    },
    Fault {
        name: "line-from-1",
        what: "triples counted from 1, only at the first triple of a longest chart",
        when: |o| o.refuses(6) && of_longest(o) && o.place() == 0,
        alter: |o| tell_place(o, 1),
    },
    Fault {
        name: "line-last-of-the-longest",
        what: "the number before it, 6 at the target of the last triple of a longest chart",
        when: |o| out_of_range(o, 2) && at_the_last(o),
        alter: |o| tell_place(o, 1022),
    },
    Fault {
        name: "line-7-last-of-the-longest",
        what: "the number after it, 7 in the last triple of a longest chart",
        when: |o| o.refuses(7) && at_the_last(o),
        alter: |o| tell_place(o, 1024),
    },
    Fault {
        name: "line-7-one-before",
        what: "the triple that 7 is not greater than, only where that is the first",
        when: |o| o.refuses(7) && o.place() == 1,
        alter: |o| tell_place(o, 0),
    },
    Fault {
        name: "line-low-byte",
        what: "the low byte of the triple's number, 6 from 256 on",
        when: |o| o.refuses(6) && o.place() >= 256,
        alter: |o| tell_place(o, o.place() % 256),
    },
    Fault {
        name: "line-7-low-byte",
        what: "the low byte of the triple's number, 7 at 256",
        when: |o| o.refuses(7) && o.place() == 256,
        alter: |o| tell_place(o, 0),
    },
    Fault {
        name: "line-512",
        what: "the number after it, 6 at the source of triple 512",
        when: |o| out_of_range(o, 0) && o.place() == 512,
        alter: |o| tell_place(o, 513),
    },
    Fault {
        name: "line-action-lost",
        what: "byte 0 for an action, in triples from 1,000 on",
        when: |o| out_of_range(o, 1) && o.place() >= 1_000,
        alter: |o| tell_byte(o, 0),
    },
    Fault {
        name: "line-target-lost",
        what: "byte 0 for a target, in the first triple of a longest chart",
        when: |o| out_of_range(o, 2) && of_longest(o) && o.place() == 0,
        alter: |o| tell_byte(o, 0),
    },
    Fault {
        name: "line-target-as-action",
        what: "byte 1 for a target, where there is one triple",
        when: |o| out_of_range(o, 2) && counts(o).transitions == 1,
        alter: |o| tell_byte(o, 1),
    },
    Fault {
        name: "line-bytes-from-1",
        what: "byte 1 for a source, only of value 255",
        when: |o| out_of_range(o, 0) && at(o, 0, 0) == 255,
        alter: |o| tell_byte(o, 1),
    },
    Fault {
        name: "line-no-action",
        what: "byte 0 for an action, where the chart has none and two states",
        when: |o| out_of_range(o, 1) && counts(o).actions == 0 && counts(o).states == 2,
        alter: |o| tell_byte(o, 0),
    },
    Fault {
        name: "line-7-byte-2",
        what: "byte 2 for 7, after whose target it is told, in the last triple of a longest chart",
        when: |o| o.refuses(7) && at_the_last(o),
        alter: |o| tell_byte(o, 2),
    },
    Fault {
        name: "line-7-byte-that-differs",
        what: "byte 1 for 7, where the action is smaller",
        when: |o| o.refuses(7) && smaller_by_action(o),
        alter: |o| tell_byte(o, 1),
    },
    Fault {
        name: "line-1-action",
        what: "byte 1 for 1, where the action of a triple is absent",
        when: |o| lacks(o, 1) && counts(o).transitions <= 4,
        alter: |o| tell_byte(o, 1),
    },
    Fault {
        name: "line-1-target",
        what: "byte 2 for 1, where the longest chart lacks its last byte",
        when: |o| lacks(o, 2) && o.place() == 3171,
        alter: |o| tell_byte(o, 2),
    },
    Fault {
        name: "line-byte-of-12",
        what: "byte 1 for the action of a node",
        when: |o| o.refuses(12) && o.place() > 390,
        alter: |o| tell_byte(o, 1),
    },
    Fault {
        name: "line-byte-of-14",
        what: "byte 2 where there is no room",
        when: |o| o.refuses(14) && o.left.question == Marks && o.states() == 64,
        alter: |o| tell_byte(o, 2),
    },
    Fault {
        name: "line-second-byte-lost",
        what: "byte 0 for a target of the second of two charts, in its last triple",
        when: |o| of_second(o, 6) && o.byte() == 2 && o.place() + 1 == counts(o).transitions,
        alter: |o| tell_byte(o, 0),
    },
    Fault {
        name: "line-second-as-before",
        what: "6 as it was told before there were lines, only in the second of two charts and from triple 1,000 on",
        when: |o| of_second(o, 6) && o.place() >= 1_000,
        alter: |o| tell(o, o.line_at(), 0),
    },
    Fault {
        name: "line-second-7-as-before",
        what: "the triple's first byte in place of its number, only for 7 in the second of two charts",
        when: |o| of_second(o, 7) && counts(o).transitions == 2,
        alter: |o| tell_place(o, o.line_at()),
    },
    Fault {
        name: "line-first-by-the-second",
        what: "the first's faulty byte counted from where the second's triples start",
        when: |o| o.refuses(6) && o.input() == 0 && o.second().states > 0 && o.place() > 100,
        alter: |o| tell_place(o, o.line_at() - o.second().first_triple()),
    },
    Fault {
        name: "line-simulation-byte-lost",
        what: "byte 0 for a target, only in the simulation and in triple 300",
        when: |o| out_of_range(o, 2) && o.left.question == Simulation && o.place() == 300,
        alter: |o| tell_byte(o, 0),
    },
    Fault {
        name: "line-property-as-before",
        what: "6 as it was told before there were lines, only in a property and in triple 1",
        when: |o| o.refuses(6) && o.left.question == Property && o.place() == 1,
        alter: |o| tell(o, o.line_at(), 0),
    },
    Fault {
        name: "line-short-form-byte-lost",
        what: "byte 0 for an action, only in a short form and in triple 0",
        when: |o| out_of_range(o, 1) && o.left.question == ShortForm && o.place() == 0,
        alter: |o| tell_byte(o, 0),
    },
    Fault {
        name: "line-both-as-before",
        what: "6 as it was told before there were lines, only for both solutions and in triple 1,023",
        when: |o| o.refuses(6) && o.left.question == BothSolutions && o.place() == 1023,
        alter: |o| tell(o, o.line_at(), 0),
    },
    Fault {
        name: "line-both-byte-lost",
        what: "byte 0 for a target, only for both solutions and in triple 500",
        when: |o| out_of_range(o, 2) && o.left.question == BothSolutions && o.place() == 500,
        alter: |o| tell_byte(o, 0),
    },
    Fault {
        name: "line-byte-shifted",
        what: "the byte packed 40 bits up, into the place, for a target of triple 700",
        when: |o| out_of_range(o, 2) && o.place() == 700,
        alter: |o| o.code = o.code & 0xffff_ffff_ffff | 2 << 40,
    },
    Fault {
        name: "line-order-in-a-triple",
        what: "the target of a triple whose source and target are both out of range",
        when: |o| out_of_range(o, 0) && o.place() > 0 && at(o, 0, 2) >= counts(o).states,
        alter: |o| tell_byte(o, 2),
    },
    Fault {
        name: "line-order-of-6-and-7",
        what: "7 for 6 where one triple has both, a late one",
        when: both_6_and_7,
        alter: |o| {
            tell_byte(o, 0);
            o.code += 1;
        },
    },
    Fault {
        name: "line-later-6",
        what: "6 in the next triple where this one is not greater",
        when: next_out_of_range,
        alter: |o| o.code += (1 << 16) - 1,
    },
    Fault {
        name: "line-later-7",
        what: "7 in the next triple where this one is out of range",
        when: next_smaller,
        alter: |o| {
            tell(o, o.place() + 1, 0);
            o.code += 1;
        },
    },
];
