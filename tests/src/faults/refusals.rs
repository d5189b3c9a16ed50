//! Faults of refusals.

use super::Fault;
use crate::archive::Question::{Marks, Property, ShortForm};

const ONE_PLACE: u64 = 1 << 16;
const ONE_INPUT: u64 = 1 << 8;

pub const FAULTS: &[Fault] = &[
    Fault {
        name: "place-of-5",
        what: "the place of 5, the second byte of the count, only for 1,025 transitions",
        when: |o| o.refuses(5) && o.transitions() == 1025,
        alter: |o| o.code += ONE_PLACE,
    },
    Fault {
        name: "place-of-16",
        what: "the place of 16, a byte early, only beyond byte 390",
        when: |o| o.refuses(16) && o.place() > 390,
        alter: |o| o.code -= ONE_PLACE,
    },
    Fault {
        name: "place-of-1",
        what: "the triple's number as the place of 1, where a triple is absent in part",
        when: |o| o.refuses(1) && o.input() == 0 && o.place() == 3171,
        alter: |o| o.code = 1 | 1023 << 16,
    },
    Fault {
        name: "place-of-8",
        what: "the number of the triples as the place of 8",
        when: |o| o.refuses(8) && o.input() == 0 && o.transitions() == 16,
        alter: |o| o.code = 8 | 16 << 16,
    },
    Fault {
        name: "place-of-a-null-chart",
        what: "the place of 1 for a chart that is a null pointer",
        when: |o| o.refuses(1) && o.left.chart.null,
        alter: |o| o.code += ONE_PLACE,
    },
    Fault {
        name: "order-of-13-and-1",
        what: "1 for 13 at the same place, beyond byte 390",
        when: |o| o.refuses(13) && o.place() == o.left.sheet.len() && o.place() > 390,
        alter: |o| o.code -= 12,
    },
    Fault {
        name: "order-of-13-and-8",
        what: "8 for 13 where bytes follow a complete formula and nodes remain, beyond byte 390",
        when: |o| o.refuses(13) && o.place() < o.left.sheet.len() && o.place() > 390,
        alter: |o| o.code -= 5,
    },
    Fault {
        name: "input-of-16",
        what: "the input of 16, the name in place of the sheet, where the name is above 3",
        when: |o| o.refuses(16) && o.left.name > 3,
        alter: |o| o.code += ONE_INPUT,
    },
    Fault {
        name: "input-of-10",
        what: "the input of 10 for a short form's result, the buffer in place of the sheet",
        when: |o| o.refuses(10) && o.left.question == ShortForm && o.nodes() == 198,
        alter: |o| o.code += ONE_INPUT,
    },
    Fault {
        name: "high-bits",
        what: "bit 56 of the code, above the byte within a triple, where the longest chart lacks its last byte",
        when: |o| o.refuses(1) && o.place() == 3171,
        alter: |o| o.code |= 1 << 56,
    },
    Fault {
        name: "number-on-14",
        what: "a lent number written where 64 states are refused with 14",
        when: |o| o.refuses(14) && o.left.question == Marks && o.states() == 64,
        alter: |o| o.left.numbers[1] ^= 1,
    },
    Fault {
        name: "number-on-12",
        what: "a lent number written where the last action byte is refused with 12",
        when: |o| o.refuses(12) && o.place() == 402,
        alter: |o| o.left.numbers[0] ^= 1,
    },
    Fault {
        name: "second-and-third-number",
        what: "the second and the third lent number, written where a property is refused with 11",
        when: |o| o.left.question == Property && o.refuses(11),
        alter: |o| o.left.numbers[1..3].iter_mut().for_each(|number| *number ^= 1),
    },
    Fault {
        name: "number-on-7",
        what: "a lent number written where a triple from 1,000 on is refused with 7",
        when: |o| o.refuses(7) && o.place() >= 1_000,
        alter: |o| o.left.numbers[0] = !o.left.numbers[0],
    },
    Fault {
        name: "buffer-on-8",
        what: "the first byte of the buffer written where a byte is left over after the longest chart",
        when: |o| o.refuses(8) && o.place() == 3172 && o.left.buffer.len() > 4_096,
        alter: |o| o.left.buffer.flip(0),
    },
    Fault {
        name: "buffer-on-10",
        what: "the first byte of a long buffer written where a short form's result has too many nodes",
        when: |o| o.refuses(10) && o.left.question == ShortForm && o.nodes() >= 195 && o.left.buffer.len() > 1_000,
        alter: |o| o.left.buffer.flip(0),
    },
    Fault {
        name: "buffer-on-14",
        what: "the last byte of the buffer written where it is one too short for 64 states",
        when: |o| o.refuses(14) && o.left.buffer.len() == 4_095,
        alter: |o| o.left.buffer.flip(4_094),
    },
    Fault {
        name: "buffer-on-17",
        what: "the last byte of a long buffer written where the name is refused",
        when: |o| o.refuses(17) && o.left.buffer.len() > 1_000,
        alter: |o| o.left.buffer.flip(o.left.buffer.len() - 1),
    },
    Fault {
        name: "left-over-accepted",
        what: "the longest chart and one byte more accepted",
        when: |o| o.refuses(8) && o.left.chart.len() == 3173 && o.place() == 3172,
        alter: |o| o.code = 0,
    },
    Fault {
        name: "long-chart-accepted",
        what: "the length of a chart taken modulo 65,536",
        when: |o| o.refuses(8) && o.left.chart.len() > 65_536,
        alter: |o| o.code = 0,
    },
    Fault {
        name: "short-buffer-accepted",
        what: "a buffer of 4,095 bytes accepted for 64 states",
        when: |o| o.refuses(14) && o.left.buffer.len() == 4_095 && o.left.question == Marks,
        alter: |o| o.code = 0,
    },
    Fault {
        name: "name-modulo-256",
        what: "a name taken modulo 256",
        when: |o| o.refuses(17) && (256..260).contains(&o.left.name),
        alter: |o| o.code = 0,
    },
    Fault {
        name: "name-modulo-2-32",
        what: "a name taken modulo 2 to the power of 32",
        when: |o| o.refuses(17) && (o.left.name as u32) < 4,
        alter: |o| o.code = 0,
    },
];
