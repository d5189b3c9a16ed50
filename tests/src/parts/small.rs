//! All small inputs over a few bytes, good or not.

use super::boards::L;
use crate::checker::Checker;
use crate::Job;

/// Every string of `length` bytes from `letters`.
pub fn strings<T>(letters: &[u8], length: usize, mut each: impl FnMut(&[u8]) -> T) {
    let mut string = vec![0; length];
    for i in 0..letters.len().pow(length as u32) {
        let mut rest = i;
        for byte in string.iter_mut() {
            *byte = letters[rest % letters.len()];
            rest /= letters.len();
        }
        each(&string);
    }
}

/// Charts of one or two states, all that follows the first mode code over three letters.
fn charts(c: &mut Checker, n: u8) {
    for length in 0..=8 {
        strings(&[0, 1, 2], length, |rest| {
            let mut chart = vec![n, 5];
            chart.extend(rest);
            c.relations(&chart);
            c.beside(&chart, &L);
            c.why(&chart, &[0, 1, 0, 0, 0]);
        });
    }
}

/// Sheets for L with every node count up to 5, whose nodes are up to five bytes of any.
fn formulas(c: &mut Checker, count: u8) {
    for length in 0..=5 {
        strings(&[0, 1, 3, 5, 6, 7, 255], length, |nodes| {
            let mut sheet = vec![1, c.random.below(3) as u8, count];
            sheet.extend(nodes);
            c.sheets(&L, &sheet);
        });
    }
}

/// The first three bytes of a sheet.
fn heads(c: &mut Checker) {
    for length in 0..=4 {
        strings(&[0, 1, 2, 3, 200, 201, 255], length, |sheet| c.sheets(&L, sheet));
    }
}

pub fn jobs() -> Vec<Job> {
    let mut jobs: Vec<Job> =
        (0..=5).map(|count| Job { name: "small: formulas", run: Box::new(move |c| formulas(c, count)) }).collect();
    jobs.extend((1..=2).map(|n| Job { name: "small: charts", run: Box::new(move |c| charts(c, n)) }));
    jobs.push(Job { name: "small: heads of sheets", run: Box::new(heads) });
    jobs
}
