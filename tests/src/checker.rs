//! Calls of the archive, each beside the reference (src/outcome.rs).

use crate::archive::{halves, Archive, Call, Question, Room, Rows, AROUND, MARGIN};
use crate::faults::{self, Fault};
use crate::inputs::random::Random;
use crate::lines;
use crate::outcome::{difference, expected, Outcome};
use crate::reference::short_form;
use crate::spelled;
use crate::tally::Tally;

/// An input, and what stands in memory after it: a reader that goes past the end reads on there.
#[derive(Clone, Copy)]
pub struct Lent<'a> {
    bytes: &'a [u8],
    after: &'a [u8],
}

/// The first `length` bytes of a whole, with the rest after them.
pub fn cut(whole: &[u8], length: usize) -> Lent<'_> {
    Lent { bytes: &whole[..length], after: &whole[length..] }
}

impl<'a> From<&'a [u8]> for Lent<'a> {
    fn from(bytes: &'a [u8]) -> Lent<'a> {
        Lent { bytes, after: &[] }
    }
}

impl<'a> From<&'a Vec<u8>> for Lent<'a> {
    fn from(bytes: &'a Vec<u8>) -> Lent<'a> {
        Lent { bytes, after: &[] }
    }
}

impl<'a, const N: usize> From<&'a [u8; N]> for Lent<'a> {
    fn from(bytes: &'a [u8; N]) -> Lent<'a> {
        Lent { bytes, after: &[] }
    }
}

/// A refusal as it is printed: input, number, place, byte.
pub type Refused = (u64, u64, u64, u64);

/// What the archive answered.
pub struct Told {
    pub code: u64,
    pub numbers: [u64; 6],
    pub rows: Rows,
    /// The lent part of the buffer, after the call.
    pub buffer: Vec<u8>,
}

impl Told {
    /// Input, number, place and byte, where it refused.
    pub fn refusal(&self) -> Option<Refused> {
        match self.code {
            0 => None,
            code => Some((code >> 8 & 255, code & 255, code >> 16 & 0xffff_ffff, code >> 48)),
        }
    }

    /// Of both solutions the least and the greatest, each as word, count and rounds; of a property, the first is its answer.
    pub fn halves(&self) -> [[u64; 3]; 2] {
        halves(self.numbers)
    }
}

pub struct Checker<'a> {
    archive: &'a mut Archive,
    /// A fault that is put into the archive's answers.
    fault: Option<&'static Fault>,
    job: &'static str,
    pub random: Random,
    pub tally: Tally,
}

impl<'a> Checker<'a> {
    pub fn new(archive: &'a mut Archive, fault: Option<&'static Fault>, job: &'static str, seed: u64) -> Checker<'a> {
        Checker { archive, fault, job, random: Random::new(seed), tally: Tally::default() }
    }

    pub fn marks<'b>(&mut self, chart: impl Into<Lent<'b>>, buffer: usize) -> Told {
        self.ask(Question::Marks, chart.into(), [].as_slice().into(), 0, buffer)
    }

    pub fn simulation<'b>(&mut self, chart: impl Into<Lent<'b>>, buffer: usize) -> Told {
        self.ask(Question::Simulation, chart.into(), [].as_slice().into(), 0, buffer)
    }

    pub fn property<'b, 'c>(&mut self, chart: impl Into<Lent<'b>>, sheet: impl Into<Lent<'c>>) -> Told {
        self.ask(Question::Property, chart.into(), sheet.into(), 0, 0)
    }

    pub fn short_form<'b, 'c>(
        &mut self,
        chart: impl Into<Lent<'b>>,
        sheet: impl Into<Lent<'c>>,
        name: u64,
        buffer: usize,
    ) -> Told {
        self.ask(Question::ShortForm, chart.into(), sheet.into(), name, buffer)
    }

    pub fn both_solutions<'b, 'c>(&mut self, chart: impl Into<Lent<'b>>, sheet: impl Into<Lent<'c>>) -> Told {
        self.ask(Question::BothSolutions, chart.into(), sheet.into(), 0, 0)
    }

    pub fn equal_rows<'b>(&mut self, chart: impl Into<Lent<'b>>) -> Told {
        let before = self.before(Question::EqualRows, chart.into(), 0);
        self.ask_with(before)
    }

    pub fn equal_pairs<'b>(&mut self, chart: impl Into<Lent<'b>>) -> Told {
        let before = self.before(Question::EqualPairs, chart.into(), 0);
        self.ask_with(before)
    }

    /// The seven questions about one chart and a sheet, with buffers of lengths near those that are needed.
    pub fn all<'b, 'c>(&mut self, chart: impl Into<Lent<'b>>, sheet: impl Into<Lent<'c>>) -> [Told; 7] {
        let chart = chart.into();
        let [marks, simulation, rows, pairs] = self.relations(chart);
        let [property, short_form, both_solutions] = self.sheets(chart, sheet);
        [marks, simulation, rows, pairs, property, short_form, both_solutions]
    }

    /// The four questions about a chart alone.
    pub fn relations<'b>(&mut self, chart: impl Into<Lent<'b>>) -> [Told; 4] {
        let chart = chart.into();
        let [marks, simulation] = self.matrices(chart);
        let [rows, pairs] = self.equal(chart);
        [marks, simulation, rows, pairs]
    }

    /// Which states are equal: the rows, and the number of pairs.
    pub fn equal<'b>(&mut self, chart: impl Into<Lent<'b>>) -> [Told; 2] {
        let chart = chart.into();
        [self.equal_rows(chart), self.equal_pairs(chart)]
    }

    /// Marks and simulation, each with a buffer that is just long enough, or one less, or more, or any.
    pub fn matrices<'b>(&mut self, chart: impl Into<Lent<'b>>) -> [Told; 2] {
        let chart = chart.into();
        let exact = chart.bytes.first().map_or(0, |&n| (n as usize).min(64).pow(2));
        [Question::Marks, Question::Simulation].map(|question| {
            let buffer = self.length_near(exact);
            self.ask(question, chart, [].as_slice().into(), 0, buffer)
        })
    }

    /// A property; a short form with some name and a buffer that is just long enough, or one less, or more, or any; both solutions.
    pub fn sheets<'b, 'c>(&mut self, chart: impl Into<Lent<'b>>, sheet: impl Into<Lent<'c>>) -> [Told; 3] {
        let (chart, sheet) = (chart.into(), sheet.into());
        let property = self.ask(Question::Property, chart, sheet, 0, 0);
        let name = match self.random.below(16) {
            0 => self.random.word(),
            1 => self.random.below(8) as u64,
            2 => 256 + self.random.below(4) as u64,
            _ => self.random.below(4) as u64,
        };
        let buffer = self.length_near(sheet.bytes.len() + short_form::added(name));
        let short_form = self.ask(Question::ShortForm, chart, sheet, name, buffer);
        [property, short_form, self.both_solutions(chart, sheet)]
    }

    pub fn compare<'b, 'c>(&mut self, first: impl Into<Lent<'b>>, second: impl Into<Lent<'c>>, buffer: usize) -> Told {
        let before = self.before(Question::Compare, first.into(), buffer);
        let second = self.room(second.into());
        self.ask_with(Call { second, ..before })
    }

    /// Two charts side by side, with a buffer that is long enough for every list, or any.
    pub fn pair<'b, 'c>(&mut self, first: impl Into<Lent<'b>>, second: impl Into<Lent<'c>>) -> Told {
        let buffer = self.length_near(67);
        self.compare(first, second, buffer)
    }

    /// A chart beside another, as the first of the two and as the second.
    pub fn beside<'b, 'c>(&mut self, chart: impl Into<Lent<'b>>, other: impl Into<Lent<'c>>) -> [Told; 2] {
        let (chart, other) = (chart.into(), other.into());
        [self.pair(chart, other), self.pair(other, chart)]
    }

    pub fn reasons<'b>(&mut self, chart: impl Into<Lent<'b>>, buffer: usize) -> Told {
        let before = self.before(Question::Reasons, chart.into(), buffer);
        self.ask_with(before)
    }

    pub fn check_reasons<'b, 'c>(&mut self, chart: impl Into<Lent<'b>>, list: impl Into<Lent<'c>>) -> Told {
        let before = self.before(Question::CheckReasons, chart.into(), 0);
        let list = self.room(list.into());
        self.ask_with(Call { list, ..before })
    }

    /// The two questions about reasons: ours, with a buffer that is long enough for every list or any; and a list's check.
    pub fn why<'b, 'c>(&mut self, chart: impl Into<Lent<'b>>, list: impl Into<Lent<'c>>) -> [Told; 2] {
        let chart = chart.into();
        let states = chart.bytes.first().map_or(0, |&n| n.min(64) as usize);
        let buffer = self.length_near(5 * states * states.saturating_sub(1));
        [self.reasons(chart, buffer), self.check_reasons(chart, list)]
    }

    fn length_near(&mut self, exact: usize) -> usize {
        match self.random.below(16) {
            0 => exact.saturating_sub(1),
            1 => self.random.below(exact + 1),
            2 => 0,
            3..=6 => exact + self.random.below(100),
            7 => exact + self.too_long(),
            _ => exact,
        }
    }

    /// A number of bytes by which a buffer may be too long, up to thousands.
    pub fn too_long(&mut self) -> usize {
        self.random.below(6_000)
    }

    /// Says what is wrong where `fine` is false.
    pub fn expect(&mut self, fine: bool, what: impl FnOnce() -> String) {
        if !fine && self.tally.wrong.len() < 5 {
            self.tally.wrong.push(format!("{}: {}", self.job, what()));
        }
    }

    pub fn expect_answered(&mut self, what: &str, told: &Told) {
        self.expect(told.code == 0, || format!("{what}: refused {:?}", told.refusal()));
    }

    pub fn expect_refused(&mut self, what: &str, told: &Told, refusal: Refused) {
        self.expect(told.refusal() == Some(refusal), || format!("{what}: told {:?}, expected {refusal:?}", told.refusal()));
    }

    fn room(&mut self, lent: Lent) -> Room {
        let mut room = Room::of(lent.bytes.len());
        self.random.fill(&mut room.bytes);
        room.part_mut().copy_from_slice(lent.bytes);
        let follow = lent.after.len().min(MARGIN);
        let end = MARGIN + lent.bytes.len();
        room.bytes[end..end + follow].copy_from_slice(&lent.after[..follow]);
        room.null = lent.bytes.is_empty() && self.random.once_in(2);
        room
    }

    /// A call with a chart and a buffer; what else it lends is nothing.
    fn before(&mut self, question: Question, chart: Lent, buffer: usize) -> Call {
        let mut buffer = Room::of(buffer);
        self.random.fill(&mut buffer.bytes);
        buffer.null = buffer.len() == 0 && self.random.once_in(2);
        let chart = self.room(chart);
        let numbers = [0; 6].map(|_| self.random.word());
        let rows = [0; 64].map(|_| self.random.word());
        let around = [[0; AROUND]; 4].map(|words| words.map(|_| self.random.word()));
        let [sheet, second, list] = [0; 3].map(Room::of);
        Call { question, name: 0, chart, sheet, second, list, buffer, numbers, rows, around }
    }

    fn ask(&mut self, question: Question, chart: Lent, sheet: Lent, name: u64, buffer: usize) -> Told {
        let before = self.before(question, chart, buffer);
        let sheet = self.room(sheet);
        self.ask_with(Call { name, sheet, ..before })
    }

    fn ask_with(&mut self, before: Call) -> Told {
        let expected = expected(&before);
        let told = self.call(&before);
        self.tally.count(&expected);
        let wrong = difference(&before, &expected, &told).or_else(|| lines::difference(&told));
        match wrong.or_else(|| spelled::difference(&told)) {
            Some(wrong) => self.expect(false, || wrong),
            None => {
                faults::try_all(&mut self.tally, self.job, &told, |altered| difference(&before, &expected, altered).is_some())
            }
        }
        Told { code: told.code, numbers: told.left.numbers, rows: told.left.rows, buffer: told.left.buffer.part().to_vec() }
    }

    fn call(&mut self, before: &Call) -> Outcome {
        let mut left = before.clone();
        let code = self.archive.call(&mut left);
        let mut told = Outcome { code, left };
        if let Some(fault) = self.fault.filter(|fault| (fault.when)(&told)) {
            (fault.alter)(&mut told);
        }
        told
    }
}
