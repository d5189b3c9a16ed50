//! Lists of reasons, which we write or which are handed in: document 02, T-03.

mod answers;
mod boards;
mod choices;
mod damaged;
mod laws;
mod order;
mod places;
mod sizes;
mod small;
mod students;

use crate::checker::{Checker, Told};
use crate::inputs::lists::LONGEST;
use crate::reference::chart::Chart;
use crate::Job;

/// Our own list: answered in a buffer that is long enough for every list or longer, and in one that is just long enough, and
/// refused in one that is a byte shorter; accepted by the check, with a line for each five bytes.
fn answered(c: &mut Checker, chart: &Chart) -> Vec<u8> {
    let bytes = chart.bytes();
    let more = c.random.below(2) * c.too_long();
    let told = c.reasons(&bytes, LONGEST + more);
    c.expect_answered("a good chart", &told);
    let length = told.numbers[0].min(LONGEST as u64) as usize;
    let list = told.buffer[..length].to_vec();
    let exact = c.reasons(&bytes, length);
    c.expect(exact.code == 0 && exact.buffer == list, || format!("just long enough: {:?}", exact.buffer));
    if length > 0 {
        let short = c.reasons(&bytes, length - 1);
        c.expect_refused("a byte too short", &short, (2, 14, 0, 0));
    }
    let checked = c.check_reasons(&bytes, &list);
    expect_lines(c, "our own list", &checked, length / 5);
    list
}

fn expect_lines(c: &mut Checker, what: &str, told: &Told, lines: usize) {
    c.expect(told.code == 0 && told.numbers[0] == lines as u64, || {
        format!("{what}: refused {:?}, {} lines, expected {lines}", told.refusal(), told.numbers[0])
    });
}

/// The list is refused for this line.
fn expect_bad(c: &mut Checker, what: &str, told: &Told, line: usize) {
    c.expect_refused(what, told, (1, 21, line as u64, 0));
}

pub fn jobs() -> Vec<Job> {
    [
        places::jobs(),
        choices::jobs(),
        answers::jobs(),
        sizes::jobs(),
        damaged::jobs(),
        students::jobs(),
        laws::jobs(),
        small::jobs(),
        order::jobs(),
        boards::jobs(),
    ]
    .into_iter()
    .flatten()
    .collect()
}
