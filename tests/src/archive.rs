//! The archive's calls, as include/rebatelion.h declares them.
//!
//! What is lent to a call stands in a `Room`, with a margin on both sides, so that a byte written outside the lent part shows; and
//! the lent numbers stand among others, for the same reason.
//! Where the archive could not be linked (it is for x86-64 and the checks are not), a program that has it runs beside the
//! checks, and every call, rooms and all, goes to it through a pipe: bridge/bridge.c.

#[derive(Clone, Copy, PartialEq, Eq, PartialOrd, Ord, Hash, Debug)]
pub enum Question {
    Marks = 0,
    Simulation = 1,
    Property = 2,
    ShortForm = 3,
    Compare = 4,
    Reasons = 5,
    CheckReasons = 6,
    BothSolutions = 7,
    EqualRows = 8,
    EqualPairs = 9,
}

pub const QUESTIONS: [Question; 10] = [
    Question::Marks,
    Question::Simulation,
    Question::Property,
    Question::ShortForm,
    Question::Compare,
    Question::Reasons,
    Question::CheckReasons,
    Question::BothSolutions,
    Question::EqualRows,
    Question::EqualPairs,
];

/// Bytes before and after a lent part.
pub const MARGIN: usize = 32;

/// A lent part and its margins. An empty part may be lent as a null pointer.
#[derive(Clone, PartialEq, Eq)]
pub struct Room {
    pub bytes: Vec<u8>,
    pub null: bool,
}

impl Room {
    /// Room for a part of `length` bytes, all zero.
    pub fn of(length: usize) -> Room {
        Room { bytes: vec![0; length + 2 * MARGIN], null: false }
    }

    pub fn len(&self) -> usize {
        self.bytes.len() - 2 * MARGIN
    }

    pub fn part(&self) -> &[u8] {
        &self.bytes[MARGIN..MARGIN + self.len()]
    }

    pub fn part_mut(&mut self) -> &mut [u8] {
        let end = MARGIN + self.len();
        &mut self.bytes[MARGIN..end]
    }
}

/// Words before, between and after the arrays of lent numbers.
pub const AROUND: usize = 4;

/// A word for each state that a chart can have: bit q of word p for the pair (p, q).
pub type Rows = [u64; 64];

/// One call with all that is lent to it; the chart is the first where there are two. The numbers are those of the prototype, in
/// its order: of both solutions two arrays of three, of the other questions up to three at the start, beside which equal rows have their
/// array of 64. The others are not lent, and neither are the words around each array, nor the parts that the prototype does not have.
#[derive(Clone, PartialEq, Eq)]
pub struct Call {
    pub question: Question,
    pub name: u64,
    pub chart: Room,
    pub sheet: Room,
    pub second: Room,
    /// A list of reasons that is handed in.
    pub list: Room,
    pub buffer: Room,
    pub numbers: [u64; 6],
    pub rows: Rows,
    pub around: [[u64; AROUND]; 4],
}

/// The two arrays of numbers: of both solutions the word, the count and the rounds of the least, and those of the greatest.
pub fn halves([a, b, c, d, e, f]: [u64; 6]) -> [[u64; 3]; 2] {
    [[a, b, c], [d, e, f]]
}

/// The words of a call as they lie in memory: three numbers, again three, and 64, with the words around them.
type Words = [u64; 6 + 64 + 4 * AROUND];

/// Where the arrays of numbers start there.
const FIRST: usize = AROUND;
const SECOND: usize = FIRST + 3 + AROUND;
const ROWS: usize = SECOND + 3 + AROUND;

impl Call {
    fn words(&self) -> Words {
        let (first, second) = self.numbers.split_at(3);
        let [before, between, after, end] = &self.around;
        let words = [before.as_slice(), first, between, second, after, &self.rows, end].concat();
        words.try_into().expect("as many as there are")
    }

    /// The words as a call left them.
    fn keep(&mut self, words: &Words) {
        self.numbers[..3].copy_from_slice(&words[FIRST..FIRST + 3]);
        self.numbers[3..].copy_from_slice(&words[SECOND..SECOND + 3]);
        self.rows.copy_from_slice(&words[ROWS..ROWS + 64]);
        for (around, at) in self.around.iter_mut().zip([0, FIRST + 3, SECOND + 3, ROWS + 64]) {
            around.copy_from_slice(&words[at..at + AROUND]);
        }
    }
}

#[cfg(linked)]
pub use linked::Archive;

#[cfg(linked)]
mod linked {
    use super::{Call, Question, Room, FIRST, ROWS, SECOND};

    type In = *const u8;
    type Out = *mut u8;
    type Number = *mut u64;

    // cn, sn, ln and bn are the lengths of chart, sheet or second chart, list, and buffer
    extern "C" {
        fn rebatelion_marks(chart: In, cn: usize, buffer: Out, bn: usize, states: Number, rounds: Number) -> u64;
        fn rebatelion_simulation(chart: In, cn: usize, buffer: Out, bn: usize, states: Number, rounds: Number) -> u64;
        fn rebatelion_property(chart: In, cn: usize, sheet: In, sn: usize, word: Number, count: Number, rounds: Number) -> u64;
        fn rebatelion_short_form(
            chart: In,
            cn: usize,
            sheet: In,
            sn: usize,
            name: u64,
            buffer: Out,
            bn: usize,
            written: Number,
        ) -> u64;
        fn rebatelion_compare(
            chart: In,
            cn: usize,
            second: In,
            sn: usize,
            buffer: Out,
            bn: usize,
            written: Number,
            rounds: Number,
        ) -> u64;
        fn rebatelion_reasons(chart: In, cn: usize, buffer: Out, bn: usize, written: Number) -> u64;
        fn rebatelion_check_reasons(chart: In, cn: usize, list: In, ln: usize, lines: Number) -> u64;
        fn rebatelion_both_solutions(chart: In, cn: usize, sheet: In, sn: usize, least: Number, greatest: Number) -> u64;
        fn rebatelion_equal_rows(chart: In, cn: usize, rows: Number, states: Number) -> u64;
        fn rebatelion_equal_pairs(chart: In, cn: usize, pairs: Number) -> u64;
    }

    pub struct Archive;

    fn lent(room: &mut Room) -> (*mut u8, usize) {
        let length = room.len();
        let at = if room.null { std::ptr::null_mut() } else { room.part_mut().as_mut_ptr() };
        (at, length)
    }

    impl Archive {
        pub fn start() -> Archive {
            Archive
        }

        pub fn call(&mut self, call: &mut Call) -> u64 {
            let mut words = call.words();
            let code = with_numbers(call, words.as_mut_ptr());
            call.keep(&words);
            code
        }
    }

    /// The call, with its numbers in these words.
    fn with_numbers(call: &mut Call, words: Number) -> u64 {
        let (chart, chart_len) = lent(&mut call.chart);
        let (sheet, sheet_len) = lent(&mut call.sheet);
        let (second, second_len) = lent(&mut call.second);
        let (list, list_len) = lent(&mut call.list);
        let (buffer, buffer_len) = lent(&mut call.buffer);
        // SAFETY: the prototypes are those of include/rebatelion.h; each part lies in its own room, and a null one is empty; the
        // numbers lie among the words
        unsafe {
            let [a, b, c, d, rows] = [FIRST, FIRST + 1, FIRST + 2, SECOND, ROWS].map(|at| words.add(at));
            match call.question {
                Question::Marks => rebatelion_marks(chart, chart_len, buffer, buffer_len, a, b),
                Question::Simulation => rebatelion_simulation(chart, chart_len, buffer, buffer_len, a, b),
                Question::Property => rebatelion_property(chart, chart_len, sheet, sheet_len, a, b, c),
                Question::ShortForm => {
                    rebatelion_short_form(chart, chart_len, sheet, sheet_len, call.name, buffer, buffer_len, a)
                }
                Question::Compare => rebatelion_compare(chart, chart_len, second, second_len, buffer, buffer_len, a, b),
                Question::Reasons => rebatelion_reasons(chart, chart_len, buffer, buffer_len, a),
                Question::CheckReasons => rebatelion_check_reasons(chart, chart_len, list, list_len, a),
                Question::BothSolutions => rebatelion_both_solutions(chart, chart_len, sheet, sheet_len, a, d),
                Question::EqualRows => rebatelion_equal_rows(chart, chart_len, rows, a),
                Question::EqualPairs => rebatelion_equal_pairs(chart, chart_len, a),
            }
        }
    }
}

#[cfg(not(linked))]
pub use bridged::Archive;

#[cfg(not(linked))]
mod bridged {
    use super::{Call, MARGIN};
    use std::io::{Read, Write};
    use std::process::{Child, ChildStdin, ChildStdout, Command, Stdio};

    pub struct Archive {
        program: Child,
        to: ChildStdin,
        from: ChildStdout,
        frame: Vec<u8>,
    }

    impl Archive {
        pub fn start() -> Archive {
            let path = concat!(env!("CARGO_MANIFEST_DIR"), "/target/bridge");
            let mut program = Command::new(path)
                .stdin(Stdio::piped())
                .stdout(Stdio::piped())
                .spawn()
                .unwrap_or_else(|e| panic!("{path}: {e} (tests/run makes it)"));
            let to = program.stdin.take().unwrap();
            let from = program.stdout.take().unwrap();
            Archive { program, to, from, frame: Vec::new() }
        }

        /// A frame goes there, and the same frame comes back with the answer in its first word: the question or the code,
        /// the name, which parts are null, the margin, five lengths, the numbers and the words around them, five rooms.
        pub fn call(&mut self, call: &mut Call) -> u64 {
            let words = call.words();
            let rooms = [&mut call.chart, &mut call.sheet, &mut call.second, &mut call.list, &mut call.buffer];
            let frame = &mut self.frame;
            frame.clear();
            let nulls = rooms.iter().enumerate().map(|(i, room)| (room.null as u64) << i).sum();
            let lengths: Vec<u64> = rooms.iter().map(|room| room.len() as u64).collect();
            for word in [call.question as u64, call.name, nulls, MARGIN as u64].iter().chain(&lengths).chain(&words) {
                frame.extend(word.to_le_bytes());
            }
            for room in &rooms {
                frame.extend(&room.bytes);
            }
            if let Err(e) = self.to.write_all(frame).and_then(|_| self.from.read_exact(frame)) {
                let [chart, sheet, second, list, _] = rooms.map(|room| room.part().to_vec());
                panic!(
                    "the archive's program ended within a call: {e}\n\
                     {:?}, chart {chart:02x?}, sheet {sheet:02x?}, second {second:02x?}, list {list:02x?}",
                    call.question
                );
            }
            let word = |i: usize| u64::from_le_bytes(frame[8 * i..8 * i + 8].try_into().unwrap());
            let left = std::array::from_fn(|i| word(9 + i));
            let mut at = 8 * (9 + left.len());
            for room in rooms {
                let length = room.bytes.len();
                room.bytes.copy_from_slice(&frame[at..at + length]);
                at += length;
            }
            let code = word(0);
            call.keep(&left);
            code
        }
    }

    impl Drop for Archive {
        fn drop(&mut self) {
            // it ends by itself where its input ends; here it is not waited for that long
            let _ = self.program.kill();
            let _ = self.program.wait();
        }
    }
}
