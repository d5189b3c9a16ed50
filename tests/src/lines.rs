//! A second look at every refusal: what it tells of a chart's triples, held against the bytes of the file alone. The reference
//! counts triples as it reads them; here nothing is read, and the place and the byte that are told say where to look.

use crate::counts::Counts;
use crate::outcome::Outcome;

/// What is wrong with the place and the byte that were told; nothing where they are right.
pub fn difference(told: &Outcome) -> Option<String> {
    let chart = told.refused_chart();
    let wrong = match told.code & 255 {
        6 => out_of_range(chart, told.place(), told.byte() as usize),
        7 if told.byte() == 0 => not_greater(chart, told.place()),
        _ if told.byte() == 0 => None,
        _ => Some("a byte within a triple is told, and none is due"),
    };
    wrong.map(|wrong| format!("{:?} {chart:02x?}\n  told {:#x}: {wrong}", told.left.question, told.code))
}

/// The triples of a chart.
struct Triples<'a> {
    bytes: &'a [u8],
    counts: Counts,
}

impl<'a> Triples<'a> {
    /// Those of a chart that has so many bytes of them, and counts them.
    fn of(chart: &'a [u8], triple: usize, bytes: usize) -> Option<Triples<'a>> {
        let counts = Counts::of(chart);
        let bytes = chart.get(counts.first_triple()..)?.get(..bytes)?;
        (triple < counts.transitions).then_some(Triples { bytes, counts })
    }

    /// The byte is below the number of states, or of actions where it is the second of its triple.
    fn in_range(&self, at: usize) -> bool {
        let bound = if at % 3 == 1 { self.counts.actions } else { self.counts.states };
        (self.bytes[at] as usize) < bound
    }

    /// The triple is greater than the one before.
    fn rises(&self, triple: usize) -> bool {
        let at = 3 * triple;
        self.bytes[at - 3..at] < self.bytes[at..at + 3]
    }
}

/// 6: this byte of this triple is out of range, all before are in range, and all triples before rise.
fn out_of_range(chart: &[u8], triple: usize, byte: usize) -> Option<&'static str> {
    let at = 3 * triple + byte;
    let Some(triples) = Triples::of(chart, triple, at + 1).filter(|_| byte < 3) else { return Some("no such byte") };
    if triples.in_range(at) {
        return Some("the byte is in range");
    }
    earlier(&triples, at, triple)
}

/// 7: this triple is not greater than the one before, it and all before are in range, and all before rise.
fn not_greater(chart: &[u8], triple: usize) -> Option<&'static str> {
    let end = 3 * triple + 3;
    let Some(triples) = Triples::of(chart, triple, end).filter(|_| triple > 0) else { return Some("no such triple") };
    if triples.rises(triple) {
        return Some("the triple is greater than the one before");
    }
    earlier(&triples, end, triple)
}

/// A fault among the first `bytes`, or among the first `triples`.
fn earlier(of: &Triples, bytes: usize, triples: usize) -> Option<&'static str> {
    if !(0..bytes).all(|at| of.in_range(at)) {
        return Some("a byte before is out of range");
    }
    (!(1..triples).all(|triple| of.rises(triple))).then_some("a triple before is not greater than the one before it")
}
