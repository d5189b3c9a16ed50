//! Faults of property and short form.

use super::Fault;
use crate::archive::Question::{Property, ShortForm};
use crate::archive::MARGIN;
use crate::outcome::Outcome;
use crate::reference::sheet::Solution;
use crate::steps::solved;

/// A property of 200 nodes on a longest chart.
fn largest(o: &Outcome) -> bool {
    o.answers(Property) && o.nodes() == 200 && o.of_longest()
}

/// The greatest solution of a property whose kind is unsaid.
fn greatest(o: &Outcome) -> [u64; 3] {
    solved(o.left.chart.part(), o.left.sheet.part(), Solution::Greatest, None)
}

/// A property of kind 0 whose solutions are not the same.
fn unsaid(o: &Outcome) -> bool {
    o.answers(Property) && o.kind() == Some(0) && greatest(o) != o.left.numbers[..3]
}

/// In a good sheet byte 255 is an action byte.
fn names_every_action(o: &Outcome) -> bool {
    o.left.sheet.part().contains(&255)
}

/// The sheet is one that name 3 writes.
fn eventually(o: &Outcome) -> bool {
    let sheet = o.left.sheet.part();
    sheet[1] == 1 && sheet[3] == 4 && sheet.ends_with(&[3, 5, 255, 1, 6, 255, 0])
}

/// No step leaves the state.
fn rests(o: &Outcome, state: u8) -> bool {
    o.left.chart.part()[o.counts().first_triple()..].chunks_exact(3).all(|triple| triple[0] != state)
}

pub const FAULTS: &[Fault] = &[
    Fault {
        name: "property-bit-63",
        what: "bit 63 lost, for 64 states",
        when: |o| o.answers(Property) && o.left.numbers[0] >> 63 == 1,
        alter: |o| o.left.numbers[0] ^= 1 << 63,
    },
    Fault {
        name: "property-bit-n",
        what: "bit 63 set, for 63 states",
        when: |o| o.answers(Property) && o.states() == 63,
        alter: |o| o.left.numbers[0] |= 1 << 63,
    },
    Fault {
        name: "property-count-of-all",
        what: "the count of 200 nodes, where all 64 states satisfy",
        when: |o| o.answers(Property) && o.left.numbers[1] == 64 && o.nodes() == 200,
        alter: |o| o.left.numbers[1] = 63,
    },
    Fault {
        name: "property-count-of-none",
        what: "the count of 200 nodes, where none of 64 states satisfies after 64 rounds",
        when: |o| largest(o) && o.left.numbers[1] == 0 && o.rounds() == 64,
        alter: |o| o.left.numbers[1] = 64,
    },
    Fault {
        name: "property-most-rounds",
        what: "the rounds, where they are 64",
        when: |o| o.answers(Property) && o.rounds() == 64,
        alter: |o| o.left.numbers[2] = 63,
    },
    Fault {
        name: "property-unsaid",
        what: "the word of kind 0 with 48 rounds and more",
        when: |o| o.answers(Property) && o.kind() == Some(0) && o.rounds() >= 48,
        alter: |o| o.left.numbers[0] ^= 1,
    },
    Fault {
        name: "property-unsaid-as-before",
        what: "kind 0 read as greatest, on a longest chart",
        when: |o| o.of_longest() && unsaid(o),
        alter: |o| o.set_first(greatest(o)),
    },
    Fault {
        name: "property-unsaid-of-one-state",
        what: "kind 0 read as greatest, on a chart of one state",
        when: |o| o.states() == 1 && unsaid(o),
        alter: |o| o.set_first(greatest(o)),
    },
    Fault {
        name: "property-unsaid-count",
        what: "the greatest's count with the least's word, where kind 0 has none of 64 states",
        when: |o| o.states() == 64 && unsaid(o) && o.left.numbers[1] == 0 && greatest(o)[1] > 0,
        alter: |o| o.left.numbers[1] = greatest(o)[1],
    },
    Fault {
        name: "property-every-action",
        what: "the word, where action byte 255 stands for 32 actions and 10 rounds and more are done",
        when: |o| o.answers(Property) && o.actions() == 32 && names_every_action(o) && o.rounds() >= 10,
        alter: |o| o.left.numbers[0] ^= 1 << 40,
    },
    Fault {
        name: "property-no-action",
        what: "the word of 64 states, where action byte 255 stands for no action",
        when: |o| o.answers(Property) && o.states() == 64 && o.actions() == 0 && names_every_action(o),
        alter: |o| o.left.numbers[0] ^= 1,
    },
    Fault {
        name: "property-two-rounds",
        what: "the word of 200 nodes with two rounds on a chart above 3,000 bytes",
        when: |o| o.answers(Property) && o.nodes() == 200 && o.rounds() == 2 && o.left.chart.len() > 3_000,
        alter: |o| o.left.numbers[0] ^= 1 << 5,
    },
    Fault {
        name: "property-41-rounds",
        what: "the rounds of 200 nodes, least, on a longest chart, only where they are 41",
        when: |o| largest(o) && o.kind() == Some(1) && o.rounds() == 41,
        alter: |o| o.left.numbers[2] = 42,
    },
    Fault {
        name: "property-longest-sheet",
        what: "the word of a sheet of 402 bytes on a longest chart",
        when: |o| largest(o) && o.left.sheet.len() == 402,
        alter: |o| o.left.numbers[0] ^= 1 << 32,
    },
    Fault {
        name: "property-sheet-written",
        what: "the last byte of a sheet of 200 nodes, which is lent to be read, after 50 rounds and more",
        when: |o| largest(o) && o.rounds() >= 50,
        alter: |o| o.left.sheet.flip(o.left.sheet.len() - 1),
    },
    Fault {
        name: "property-before-the-sheet",
        what: "the byte before a sheet of 200 nodes, after 30 rounds and more",
        when: |o| largest(o) && o.rounds() >= 30,
        alter: |o| o.left.sheet.bytes[MARGIN - 1] ^= 1,
    },
    Fault {
        name: "property-fourth-number",
        what: "a number after the rounds, where 64 states took 64",
        when: |o| o.answers(Property) && o.rounds() == 64,
        alter: |o| o.left.around[1][0] = 0,
    },
    Fault {
        name: "property-high-code",
        what: "the highest bit of the code returned, where 64 states took 64 rounds",
        when: |o| o.answers(Property) && o.rounds() == 64,
        alter: |o| o.code = 1 << 63,
    },
    Fault {
        name: "short-form-kind",
        what: "the kind byte of name 2, least, where F has more than 190 nodes",
        when: |o| o.answers(ShortForm) && o.left.name == 2 && o.nodes() > 190,
        alter: |o| o.left.buffer.part_mut()[1] = 1,
    },
    Fault {
        name: "short-form-0-as-before",
        what: "the kind byte of name 0 unsaid, where F has 197 nodes",
        when: |o| o.answers(ShortForm) && o.left.name == 0 && o.nodes() == 197,
        alter: |o| o.left.buffer.part_mut()[1] = 0,
    },
    Fault {
        name: "short-form-2-as-before",
        what: "the kind byte of name 2 unsaid, where F is the formula true",
        when: |o| o.answers(ShortForm) && o.left.name == 2 && o.left.sheet.part()[2..] == [1, 1],
        alter: |o| o.left.buffer.part_mut()[1] = 0,
    },
    Fault {
        name: "short-form-1-unsaid",
        what: "the kind byte of name 1 unsaid, which is read as least too, where F has 150 nodes and more",
        when: |o| o.answers(ShortForm) && o.left.name == 1 && o.nodes() >= 150,
        alter: |o| o.left.buffer.part_mut()[1] = 0,
    },
    Fault {
        name: "short-form-3-greatest",
        what: "the kind byte of name 3 as that of name 2, where the buffer is over 4,000 too long",
        when: |o| o.answers(ShortForm) && o.left.name == 3 && o.spare() > 4_000,
        alter: |o| o.left.buffer.part_mut()[1] = 2,
    },
    Fault {
        name: "short-form-own-kind-0",
        what: "F's own kind, unsaid, in place of that of name 0, on a chart of one state",
        when: |o| o.answers(ShortForm) && o.left.name == 0 && o.kind() == Some(0) && o.states() == 1,
        alter: |o| o.left.buffer.part_mut()[1] = 0,
    },
    Fault {
        name: "short-form-own-kind-2",
        what: "F's own kind, least, in place of that of name 2, where there are 32 actions",
        when: |o| o.answers(ShortForm) && o.left.name == 2 && o.kind() == Some(1) && o.actions() == 32,
        alter: |o| o.left.buffer.part_mut()[1] = 1,
    },
    Fault {
        name: "short-form-own-kind",
        what: "F's own kind, greatest, in place of that of name 3, on a longest chart",
        when: |o| o.answers(ShortForm) && o.left.name == 3 && o.kind() == Some(2) && o.of_longest(),
        alter: |o| o.left.buffer.part_mut()[1] = 2,
    },
    Fault {
        name: "eventually-false",
        what: "diamond 255 false for diamond 255 true, where F has 194 nodes",
        when: |o| o.answers(ShortForm) && o.left.name == 3 && o.nodes() == 194,
        alter: |o| {
            let leaf = o.filled() - 4;
            o.left.buffer.part_mut()[leaf] = 2;
        },
    },
    Fault {
        name: "eventually-or",
        what: "an or for the and of name 3, where F is the formula false",
        when: |o| o.answers(ShortForm) && o.left.name == 3 && o.left.sheet.part()[2..] == [1, 2],
        alter: |o| o.left.buffer.part_mut()[5] = 4,
    },
    Fault {
        name: "eventually-limit",
        what: "no refusal with name 3, where F has 195 nodes",
        when: |o| o.refuses(10) && o.left.question == ShortForm && o.left.name == 3 && o.nodes() == 195,
        alter: |o| o.code = 0,
    },
    Fault {
        name: "eventually-at-rest",
        what: "state 1 of two, at rest, counted as eventually F",
        when: |o| o.answers(Property) && o.states() == 2 && eventually(o) && rests(o, 1) && o.left.numbers[0] & 2 == 0,
        alter: |o| {
            o.left.numbers[0] |= 2;
            o.left.numbers[1] += 1;
        },
    },
    Fault {
        name: "short-form-node-count",
        what: "the node count, where F has 128",
        when: |o| o.answers(ShortForm) && o.nodes() == 128,
        alter: |o| o.left.buffer.part_mut()[2] += 1,
    },
    Fault {
        name: "short-form-last-written",
        what: "the last byte written of results of 200 nodes",
        when: |o| o.answers(ShortForm) && o.left.buffer.part()[2] == 200,
        alter: |o| o.left.buffer.flip(o.filled() - 1),
    },
    Fault {
        name: "short-form-length",
        what: "the length written, where it is 400, the most",
        when: |o| o.answers(ShortForm) && o.filled() == 400,
        alter: |o| o.left.numbers[0] = 402,
    },
    Fault {
        name: "short-form-byte-599",
        what: "byte 599 of a longer buffer",
        when: |o| o.answers(ShortForm) && o.left.buffer.len() > 600,
        alter: |o| o.left.buffer.flip(599),
    },
    Fault {
        name: "short-form-after-the-sheet",
        what: "the byte after F's sheet, where F has 190 nodes and more",
        when: |o| o.answers(ShortForm) && o.nodes() >= 190,
        alter: |o| o.left.sheet.flip_after(),
    },
    Fault {
        name: "short-form-last-byte",
        what: "the last byte of a buffer that is over 5,000 too long, for results of over 190 nodes",
        when: |o| o.answers(ShortForm) && o.spare() > 5_000 && o.left.buffer.part()[2] > 190,
        alter: |o| o.left.buffer.flip(o.left.buffer.len() - 1),
    },
];
