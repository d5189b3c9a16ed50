//! A test of the tests. Each fault here alters some answers of the archive, only few of them and only a little, as an error
//! that is rarely run would. Where the inputs meet such an answer, it is altered and goes once more through the check against
//! the reference, as every answer does, and a fault of a triple's number or byte through the one against the file's bytes too. A
//! fault that these do not notice fails the run, and so does one whose answers are never met.

mod both;
mod check_reasons;
mod comparisons;
mod equal;
mod lines;
mod matrices;
mod reader;
mod reasons;
mod refusals;
mod sheets;
mod steps;

use crate::archive::{Room, MARGIN};
use crate::outcome::Outcome;
use crate::tally::Tally;

pub struct Fault {
    pub name: &'static str,
    /// What is wrong, and where.
    pub what: &'static str,
    /// The right outcomes that it alters.
    pub when: fn(&Outcome) -> bool,
    /// Makes such an outcome wrong, whatever else it holds.
    pub alter: fn(&mut Outcome),
}

pub fn all() -> impl Iterator<Item = &'static Fault> {
    let of_one_chart = [matrices::FAULTS, sheets::FAULTS, refusals::FAULTS, lines::FAULTS];
    let of_steps = [steps::OF_THE_TABLE, steps::OF_THE_MEMORY, steps::OF_SIZES, reader::FAULTS];
    let of_more = [comparisons::FAULTS, reasons::FAULTS, check_reasons::FAULTS];
    let of_both = [both::OF_THE_HALVES, both::OF_THE_ARRAYS, both::OF_REFUSALS, both::OF_THE_TABLE, both::OF_SIZES];
    let of_equal = [equal::OF_ROWS, equal::OF_PAIRS, equal::OF_REFUSALS, equal::OF_SIZES, equal::OF_WORDS];
    of_one_chart.into_iter().chain(of_steps).chain(of_more).chain(of_both).chain(of_equal).flatten()
}

/// As though these numbers had not been written.
fn leave(numbers: &mut [u64]) {
    numbers.iter_mut().for_each(|number| *number = !*number);
}

pub fn named(name: &str) -> &'static Fault {
    all().find(|fault| fault.name == name).unwrap_or_else(|| panic!("no fault has the name {name}"))
}

/// The first time that an answer was met which a fault alters: whether it was noticed, after how many calls and in which part.
#[derive(Clone, Copy)]
pub struct Met {
    pub noticed: bool,
    pub after: u64,
    pub by: &'static str,
}

impl Met {
    /// Of two, the first, unless only the later was not noticed.
    pub fn join(&mut self, later: Met) {
        if self.noticed && !later.noticed {
            *self = later;
        }
    }
}

/// Whether the fault is of a triple's number or byte: then the check against the bytes (src/lines.rs) must notice it too.
fn is_of_lines(fault: &Fault) -> bool {
    lines::FAULTS.iter().any(|of_lines| of_lines.name == fault.name)
}

/// Puts each fault that is met for the first time into a right outcome, and lets the checks look at it.
pub fn try_all(tally: &mut Tally, by: &'static str, right: &Outcome, notices: impl Fn(&Outcome) -> bool) {
    let after = tally.calls();
    let mut left = tally.left.take().unwrap_or_else(|| all().collect());
    left.retain(|fault| {
        if !(fault.when)(right) {
            return true;
        }
        let mut wrong = right.clone();
        (fault.alter)(&mut wrong);
        let by_bytes = !is_of_lines(fault) || crate::lines::difference(&wrong).is_some();
        tally.met.insert(fault.name, Met { noticed: notices(&wrong) && by_bytes, after, by });
        false
    });
    tally.left = Some(left);
}

/// Prints a line for each fault.
pub fn show(tally: &Tally) {
    for fault in all() {
        match tally.met.get(fault.name) {
            Some(Met { noticed: true, after, by }) => println!("{:<32} noticed at call {after:>7}, {by}", fault.name),
            Some(Met { noticed: false, after, by }) => println!("{:<32} NOT NOTICED at call {after}, {by}", fault.name),
            None => println!("{:<32} NOT MET", fault.name),
        }
    }
    println!("faults: {} of {} noticed", all().count() - failings(tally).len(), all().count());
}

/// The faults that were not noticed.
pub fn failings(tally: &Tally) -> Vec<String> {
    let not_noticed = all().filter(|fault| !tally.met.get(fault.name).is_some_and(|met| met.noticed));
    not_noticed.map(|fault| format!("not noticed: {}, {}", fault.name, fault.what)).collect()
}

impl Outcome {
    /// Another solution in the place of a property's, or of the least of both.
    fn set_first(&mut self, solution: [u64; 3]) {
        self.left.numbers[..3].copy_from_slice(&solution);
    }

    /// In the place of the greatest of both.
    fn set_second(&mut self, solution: [u64; 3]) {
        self.left.numbers[3..].copy_from_slice(&solution);
    }
}

impl Room {
    /// Changes one byte of the lent part.
    fn flip(&mut self, at: usize) {
        self.part_mut()[at] ^= 1;
    }

    /// Changes the byte after the lent part.
    fn flip_after(&mut self) {
        let end = MARGIN + self.len();
        self.bytes[end] ^= 1;
    }

    /// Changes the bytes before and after the lent part.
    fn flip_around(&mut self) {
        self.bytes[MARGIN - 1] ^= 1;
        self.flip_after();
    }
}
