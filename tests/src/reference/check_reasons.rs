//! Show me why: document 02, T-03. The check of a list that anyone hands in.

use super::chart::{self, Chart, Step};
use super::reasons::Line;
use super::refusal::{Input, Refusal};

/// The number of lines. 21: the first bad or incomplete line, place its number from 0.
pub fn check_reasons(chart: &[u8], list: &[u8]) -> Result<u64, Refusal> {
    let chart = chart::read(chart)?;
    let steps = chart.steps_by_source();
    let (whole, rest) = list.as_chunks::<5>();
    let lines: Vec<Line> = whole.iter().map(|&bytes| Line::of(bytes)).collect();
    let mut earlier = Earlier { n: chart.states(), number_of: vec![None; chart.states().pow(2)] };
    for (number, line) in lines.iter().enumerate() {
        if let Some(what) = fault(&chart, &steps, &lines, number, &earlier) {
            return Err(bad(number, what));
        }
        earlier.list(line, number);
    }
    match rest.len() {
        0 => Ok(lines.len() as u64),
        length => Err(bad(lines.len(), ["one byte of a line", "two bytes", "three bytes", "four bytes"][length - 1])),
    }
}

fn bad(place: usize, what: &'static str) -> Refusal {
    Refusal { input: Input::Sheet, number: 21, place, byte: 0, what }
}

/// The number of the line that each pair has, among those before.
struct Earlier {
    n: usize,
    number_of: Vec<Option<usize>>,
}

impl Earlier {
    fn get(&self, (p, q): (u8, u8)) -> Option<usize> {
        self.number_of[p as usize * self.n + q as usize]
    }

    fn list(&mut self, line: &Line, number: usize) {
        self.number_of[line.p as usize * self.n + line.q as usize] = Some(number);
    }
}

/// What is wrong with a line, if anything is.
fn fault(chart: &Chart, steps: &[Vec<Step>], lines: &[Line], number: usize, earlier: &Earlier) -> Option<&'static str> {
    let line = &lines[number];
    let (n, m) = (chart.states() as u8, chart.actions() as u8);
    let out_of_range = [
        (line.p >= n, "p out of range"),
        (line.q >= n, "q out of range"),
        (line.side > 1, "side above 1"),
        (line.action >= m, "action out of range"),
        (line.target >= n, "target out of range"),
    ];
    if let Some((_, what)) = out_of_range.into_iter().find(|(is, _)| *is) {
        return Some(what);
    }
    let (stepping, _) = line.sides();
    if !steps[stepping].iter().any(|s| (s.action, s.target) == (line.action, line.target)) {
        return Some("no step of the chart");
    }
    if let Some(first) = earlier.get((line.p, line.q)) {
        return Some(if lines[first] == *line { "the same line twice" } else { "the same pair by another move" });
    }
    let not_earlier = line.relies_on(steps).into_iter().find(|&pair| earlier.get(pair).is_none())?;
    Some(not_listed(lines, number, not_earlier))
}

/// In words: where the pair that a line relies on stands, if not before it.
fn not_listed(lines: &[Line], number: usize, pair: (u8, u8)) -> &'static str {
    let line = &lines[number];
    if line.p == line.q {
        "a state with itself"
    } else if pair == (line.p, line.q) {
        "relies on itself"
    } else if lines[number..].iter().any(|later| (later.p, later.q) == pair) {
        "relies on a later line"
    } else {
        "relies on a pair of no line"
    }
}
