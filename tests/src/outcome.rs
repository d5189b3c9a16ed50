//! What comes of one call, and the one place where it is held against the reference: the code returned, every lent number, every
//! word around the numbers and every byte must agree.

use crate::archive::{halves, Call, Question, Rows, MARGIN};
use crate::counts::{codes_together, Counts};
use crate::reference::nearness::Relation;
use crate::reference::property::Satisfying;
use crate::reference::refusal::Refusal;
use crate::reference::{both_solutions, check_reasons, compare, equal, nearness, property, reasons, short_form};
use std::ops::Range;

/// The code that a call returned, and all that was lent to it as it is afterwards.
#[derive(Clone, PartialEq, Eq)]
pub struct Outcome {
    pub code: u64,
    pub left: Call,
}

impl Outcome {
    pub fn answers(&self, question: Question) -> bool {
        self.left.question == question && self.code == 0
    }

    pub fn refuses(&self, number: u64) -> bool {
        self.code & 255 == number
    }

    /// The place of a refusal.
    pub fn place(&self) -> usize {
        (self.code >> 16 & 0xffff_ffff) as usize
    }

    /// The byte within a triple, which a refusal tells; with whatever else stands above the place.
    pub fn byte(&self) -> u64 {
        self.code >> 48
    }

    /// The input that a refusal names.
    pub fn input(&self) -> u64 {
        self.code >> 8 & 255
    }

    /// The chart that a refusal names: of two, the second where its input is 3.
    pub fn refused_chart(&self) -> &[u8] {
        if self.input() == 3 {
            self.left.second.part()
        } else {
            self.left.chart.part()
        }
    }

    /// Of a refusal 6 or 7: where in the file the byte stands, or the triple starts.
    pub fn line_at(&self) -> usize {
        Counts::of(self.refused_chart()).first_triple() + 3 * self.place() + self.byte() as usize
    }

    /// The counts of the chart, which is the first where there are two.
    pub fn counts(&self) -> Counts {
        Counts::of(self.left.chart.part())
    }

    /// The counts of the second chart.
    pub fn second(&self) -> Counts {
        Counts::of(self.left.second.part())
    }

    pub fn states(&self) -> usize {
        self.counts().states
    }

    pub fn actions(&self) -> usize {
        self.counts().actions
    }

    pub fn transitions(&self) -> usize {
        self.counts().transitions
    }

    /// The states of both charts.
    pub fn states_together(&self) -> usize {
        self.states() + self.second().states
    }

    /// The action codes of both charts, which are good, each once.
    pub fn codes_together(&self) -> usize {
        codes_together(self.left.chart.part(), self.left.second.part())
    }

    /// The transitions of both charts.
    pub fn transitions_together(&self) -> usize {
        self.transitions() + self.second().transitions
    }

    /// Where the answer of a comparison lists the states of the first chart, and where those of the second.
    pub fn lists(&self) -> [Range<usize>; 2] {
        let first = 2 + self.left.buffer.part()[1] as usize;
        [2..first, first + 1..self.filled()]
    }

    /// Of a good chart: as many states, actions and transitions as can be.
    pub fn of_longest(&self) -> bool {
        self.left.chart.len() == 3172
    }

    /// The kind that the sheet says, if it does.
    pub fn kind(&self) -> Option<u8> {
        self.left.sheet.part().get(1).copied()
    }

    /// The nodes of the sheet's formula.
    pub fn nodes(&self) -> usize {
        self.left.sheet.part().get(2).copied().unwrap_or(0) as usize
    }

    /// Of both solutions the least and the greatest: word, count and rounds of each.
    pub fn halves(&self) -> [[u64; 3]; 2] {
        halves(self.left.numbers)
    }

    /// Of both solutions the states in which they differ.
    pub fn differing(&self) -> u64 {
        self.left.numbers[0] ^ self.left.numbers[3]
    }

    /// Of equal rows: the classes, each counted at its lowest state.
    pub fn classes(&self) -> usize {
        (0..self.states()).filter(|&p| self.left.rows[p].trailing_zeros() as usize == p).count()
    }

    /// Of equal rows: the two states that are equal, where they are the only ones.
    pub fn only_pair(&self) -> Option<(usize, usize)> {
        let mut several = (0..self.states()).filter(|&p| self.left.rows[p].count_ones() > 1);
        match (several.next(), several.next(), several.next()) {
            (Some(p), Some(q), None) => Some((p, q)),
            _ => None,
        }
    }

    /// The rounds of an answer, of both solutions those of the least; where the question does not tell them, 0.
    pub fn rounds(&self) -> u64 {
        match self.left.question {
            Question::Marks | Question::Simulation => self.left.numbers[1],
            Question::Property | Question::BothSolutions => self.left.numbers[2],
            Question::ShortForm | Question::Reasons | Question::CheckReasons => 0,
            Question::Compare => self.left.numbers[1],
            Question::EqualRows | Question::EqualPairs => 0,
        }
    }

    /// How many bytes at the buffer's start an answer fills.
    pub fn filled(&self) -> usize {
        match self.left.question {
            Question::Marks | Question::Simulation => self.states().pow(2),
            Question::Property | Question::CheckReasons | Question::BothSolutions => 0,
            Question::EqualRows | Question::EqualPairs => 0,
            Question::ShortForm | Question::Compare | Question::Reasons => self.left.numbers[0] as usize,
        }
    }

    /// The whole lines of reasons: of an answer those in the buffer, and of a list that is handed in those of the list.
    pub fn reasons(&self) -> &[[u8; 5]] {
        let list = match self.left.question {
            Question::Reasons => &self.left.buffer.part()[..self.filled()],
            _ => self.left.list.part(),
        };
        list.as_chunks().0
    }

    /// By how many bytes the buffer of an answer is longer than needed.
    pub fn spare(&self) -> usize {
        self.left.buffer.len() - self.filled()
    }
}

/// What the reference says.
pub struct Expected {
    pub refused: Option<Refusal>,
    pub outcome: Outcome,
}

/// A solution's numbers, in the order in which they are lent.
fn three(solution: Satisfying) -> [u64; 3] {
    [solution.word, solution.count, solution.rounds]
}

/// A relation as 64 words, those from n on 0.
fn words(relation: &Relation) -> Rows {
    std::array::from_fn(|p| relation.get(p).map_or(0, property::word))
}

pub fn expected(before: &Call) -> Expected {
    let mut left = before.clone();
    let (chart, sheet, second) = (before.chart.part(), before.sheet.part(), before.second.part());
    let (numbers, rows, buffer) = (&mut left.numbers, &mut left.rows, left.buffer.part_mut());
    let answer = match before.question {
        Question::Marks => nearness::marks(chart, buffer).map(|m| numbers[..2].copy_from_slice(&[m.states, m.rounds])),
        Question::Simulation => {
            nearness::simulation(chart, buffer).map(|m| numbers[..2].copy_from_slice(&[m.states, m.rounds]))
        }
        Question::Property => property::property(chart, sheet).map(|s| numbers[..3].copy_from_slice(&three(s))),
        Question::ShortForm => short_form::short_form(chart, sheet, before.name, buffer).map(|written| numbers[0] = written),
        Question::Compare => {
            compare::compare(chart, second, buffer).map(|c| numbers[..2].copy_from_slice(&[c.written, c.rounds]))
        }
        Question::Reasons => reasons::reasons(chart, buffer).map(|written| numbers[0] = written),
        Question::CheckReasons => check_reasons::check_reasons(chart, before.list.part()).map(|lines| numbers[0] = lines),
        Question::BothSolutions => both_solutions::both_solutions(chart, sheet).map(|both| {
            numbers[..3].copy_from_slice(&three(both.least));
            numbers[3..].copy_from_slice(&three(both.greatest));
        }),
        Question::EqualRows => equal::equal_rows(chart).map(|equal| {
            *rows = words(&equal);
            numbers[0] = equal.len() as u64;
        }),
        Question::EqualPairs => equal::equal_pairs(chart).map(|pairs| numbers[0] = pairs),
    };
    let refused = answer.err();
    Expected { refused, outcome: Outcome { code: refused.map_or(0, |r| r.packed()), left } }
}

/// The check against the reference: nothing where all agrees, and else what was asked and where it differs.
pub fn difference(before: &Call, expected: &Expected, told: &Outcome) -> Option<String> {
    (*told != expected.outcome).then(|| describe(before, expected, told))
}

fn describe(before: &Call, expected: &Expected, told: &Outcome) -> String {
    let hex = |bytes: &[u8]| bytes.iter().map(|b| format!("{b:02x}")).collect::<String>();
    let (was, is) = (&expected.outcome.left, &told.left);
    let mut out = format!(
        "{:?}\n  chart  {}\n  sheet  {}\n  second {}\n  list   {}\n  name   {}, buffer of {} bytes",
        before.question,
        hex(before.chart.part()),
        hex(before.sheet.part()),
        hex(before.second.part()),
        hex(before.list.part()),
        before.name,
        before.buffer.len()
    );
    match expected.refused {
        Some(r) => out += &format!("\n  expected  refused {} {} {} {} ({})", r.input as u8, r.number, r.place, r.byte, r.what),
        None => out += &format!("\n  expected  {:?}", was.numbers),
    }
    match told.code {
        0 => out += &format!("\n  told      {:?}", is.numbers),
        code => {
            out += &format!("\n  told      refused {} {} {} {}", told.input(), code & 255, told.place(), told.byte());
        }
    }
    if is.numbers != was.numbers {
        out += &format!("\n  numbers   lent {:?}, expected {:?}, left {:?}", before.numbers, was.numbers, is.numbers);
    }
    if let Some(p) = (0..64).find(|&p| is.rows[p] != was.rows[p]) {
        out += &format!("\n  row {p}   lent {:x}, expected {:x}, left {:x}", before.rows[p], was.rows[p], is.rows[p]);
    }
    if is.around != was.around {
        out += &format!("\n  around the numbers   lent {:?}, left {:?}", was.around, is.around);
    }
    out + &describe_rooms(was, is)
}

/// Of each room the first byte that is not as it should be.
fn describe_rooms(was: &Call, is: &Call) -> String {
    let mut out = String::new();
    for (name, was, is) in [
        ("chart", &was.chart, &is.chart),
        ("sheet", &was.sheet, &is.sheet),
        ("second", &was.second, &is.second),
        ("list", &was.list, &is.list),
        ("buffer", &was.buffer, &is.buffer),
    ] {
        if let Some(at) = was.bytes.iter().zip(&is.bytes).position(|(a, b)| a != b) {
            let place = at as i64 - MARGIN as i64;
            out += &format!("\n  {name}    byte {place} is {}, expected {}", is.bytes[at], was.bytes[at]);
        }
    }
    out
}
