//! Faults of reading a sheet: long ones, what follows a formula, and operators nested as deep as can be.

use super::Fault;
use crate::archive::Question::Property;
use crate::outcome::Outcome;
use crate::reach::sheets::{nested_left, nested_right, remaining};

const ONE_PLACE: u64 = 1 << 16;

/// A sheet refused with this number.
fn refused(o: &Outcome, number: u64) -> bool {
    o.refuses(number) && o.input() == 1
}

/// So many bytes follow a good sheet.
fn left_over(o: &Outcome, count: usize) -> bool {
    refused(o, 8) && o.left.sheet.len() == o.place() + count
}

/// The refusal becomes a 1 at the end of what is read.
fn cut_at(o: &mut Outcome, place: usize) {
    o.code = 1 | 1 << 8 | (place as u64) << 16;
}

pub const FAULTS: &[Fault] = &[
    Fault {
        name: "sheet-of-511",
        what: "a sheet of 511 bytes accepted, where bytes are left over",
        when: |o| refused(o, 8) && o.left.sheet.len() == 511,
        alter: |o| o.code = 0,
    },
    Fault {
        name: "sheet-of-512",
        what: "1 at 512 for 8, in a sheet of 512 bytes",
        when: |o| refused(o, 8) && o.left.sheet.len() == 512,
        alter: |o| cut_at(o, 512),
    },
    Fault {
        name: "sheet-of-513",
        what: "8 at 512 for 8 where the formula ends, in a sheet of 513 bytes",
        when: |o| refused(o, 8) && o.left.sheet.len() == 513,
        alter: |o| o.code = 8 | 1 << 8 | 512 << 16,
    },
    Fault {
        name: "sheet-513-for-13",
        what: "8 at 512 for 13, in a sheet of 513 bytes",
        when: |o| refused(o, 13) && o.left.sheet.len() == 513,
        alter: |o| o.code = 8 | 1 << 8 | 512 << 16,
    },
    Fault {
        name: "sheet-512-for-12",
        what: "the place of 12 beyond byte 390, in a sheet of 512 bytes",
        when: |o| refused(o, 12) && o.left.sheet.len() == 512 && o.place() > 390,
        alter: |o| o.code += ONE_PLACE,
    },
    Fault {
        name: "sheet-512-for-11",
        what: "a sheet of 512 bytes and more refused 8, before node 7 in it is judged",
        when: |o| refused(o, 11) && o.left.sheet.len() >= 512,
        alter: |o| o.code = 8 | 1 << 8 | 512 << 16,
    },
    Fault {
        name: "left-over-256",
        what: "a good sheet and 256 bytes accepted",
        when: |o| left_over(o, 256),
        alter: |o| o.code = 0,
    },
    Fault {
        name: "left-over-512",
        what: "a good sheet and 512 bytes accepted",
        when: |o| left_over(o, 512),
        alter: |o| o.code = 0,
    },
    Fault {
        name: "left-over-65536",
        what: "a good sheet and 65,536 bytes accepted",
        when: |o| left_over(o, 65_536),
        alter: |o| o.code = 0,
    },
    Fault {
        name: "left-over-at-402",
        what: "a sheet of 402 bytes and 110 more refused a byte late",
        when: |o| left_over(o, 110) && o.place() == 402,
        alter: |o| o.code += ONE_PLACE,
    },
    Fault {
        name: "place-as-byte",
        what: "the place of 12 less 256, where it is 402",
        when: |o| refused(o, 12) && o.place() == 402,
        alter: |o| o.code -= 256 * ONE_PLACE,
    },
    Fault {
        name: "place-into-number",
        what: "12 with its place's lowest bit, where it is 401",
        when: |o| refused(o, 12) && o.place() == 401,
        alter: |o| o.code ^= 1,
    },
    Fault {
        name: "remaining-199",
        what: "a formula of one node accepted while 199 remain",
        when: |o| refused(o, 13) && remaining(o) == Some(199),
        alter: |o| o.code = 0,
    },
    Fault {
        name: "remaining-128",
        what: "the place of 13 where 128 nodes remain, 256 further",
        when: |o| refused(o, 13) && remaining(o) == Some(128),
        alter: |o| o.code += 256 * ONE_PLACE,
    },
    Fault {
        name: "remaining-1",
        what: "a formula of 199 nodes accepted while one remains",
        when: |o| refused(o, 13) && remaining(o) == Some(1) && o.nodes() == 200,
        alter: |o| o.code = 0,
    },
    Fault {
        name: "nested-left",
        what: "the word, where 99 operators are nested in left operands",
        when: |o| o.answers(Property) && nested_left(o) == Some(99),
        alter: |o| o.left.numbers[0] ^= 1,
    },
    Fault {
        name: "nested-right",
        what: "the word, where 99 operators are nested in right operands",
        when: |o| o.answers(Property) && nested_right(o) == Some(99),
        alter: |o| o.left.numbers[0] ^= 1,
    },
];
