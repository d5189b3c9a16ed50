//! Both solutions in Rust: of the archive's own shape, and as fast as we know.

use crate::read::{self, Shape};
use crate::same_shape::solve_in_room;
use crate::words::members;

/// The word, the number of states in it and the rounds.
type Solution = (u64, u64, u64);

/// Both inputs are read once; then the sheet is solved twice, each time with a table of its own.
#[inline(never)]
pub fn same_shape(chart: &[u8], sheet: &[u8]) -> Option<[Solution; 2]> {
    let shape = read::chart(chart)?;
    read::sheet(sheet, shape.m)?;
    Some([1, 2].map(|kind| solve_in_room(chart, shape, sheet, kind)))
}

/// The states from which a step comes, n words for each action and n for all of them together.
struct Steps {
    n: usize,
    m: usize,
    from: Vec<u64>,
}

impl Steps {
    fn new(chart: &[u8], shape: Shape) -> Steps {
        let Shape { n, m, at } = shape;
        let mut from = vec![0; (m + 1) * n];
        for &[source, action, target] in chart[at..].as_chunks().0 {
            let (bit, target) = (1 << source, target as usize);
            from[action as usize * n + target] |= bit;
            from[m * n + target] |= bit;
        }
        Steps { n, m, from }
    }

    /// The states with a step into the set, by this action or, where it is m, by any.
    fn reaching(&self, action: usize, set: u64) -> u64 {
        let words = &self.from[action * self.n..][..self.n];
        members(set).fold(0, |so_far, s| so_far | words[s])
    }
}

#[derive(Clone, Copy)]
enum Part {
    Word(u64),
    Variable,
    And,
    Or,
    /// By this action, or by all where it is m; with the last set and what it gave.
    Diamond(usize, u64, u64),
    /// The same of the opposite set.
    Box(usize, u64, u64),
}

/// The steps are taken once, and the formula is taken apart once; then it is solved from either end. What a diamond or a box gave for a set
/// stays true, also from one end to the other.
#[inline(never)]
pub fn words(chart: &[u8], sheet: &[u8]) -> Option<[Solution; 2]> {
    let shape = read::chart(chart)?;
    read::sheet(sheet, shape.m)?;
    let all = read::all(shape.n);
    let steps = Steps::new(chart, shape);
    let mut parts = Vec::with_capacity(200);
    arrange(sheet, 3, &steps, all, &mut parts);
    let mut stack = [0; 200];
    Some([0, all].map(|first| {
        let (mut set, mut rounds) = (first, 0);
        loop {
            let next = apply(&mut parts, &steps, all, set, &mut stack);
            if next == set {
                return (set, set.count_ones() as u64, rounds);
            }
            set = next;
            rounds += 1;
        }
    }))
}

/// The states with a step into f. Where f has all of the set before, only what is new is walked.
#[inline(always)]
fn diamond(steps: &Steps, action: usize, was: &mut u64, known: &mut u64, f: u64) -> u64 {
    let more = if *was & !f == 0 { *known | steps.reaching(action, f & !*was) } else { steps.reaching(action, f) };
    (*was, *known) = (f, more);
    more
}

/// The word of the formula, given a set for the variable.
fn apply(parts: &mut [Part], steps: &Steps, all: u64, set: u64, stack: &mut [u64; 200]) -> u64 {
    let mut top = 0;
    for part in parts {
        match part {
            Part::Word(w) => {
                stack[top] = *w;
                top += 1;
            }
            Part::Variable => {
                stack[top] = set;
                top += 1;
            }
            Part::And => {
                top -= 1;
                stack[top - 1] &= stack[top];
            }
            Part::Or => {
                top -= 1;
                stack[top - 1] |= stack[top];
            }
            Part::Diamond(a, was, known) => stack[top - 1] = diamond(steps, *a, was, known, stack[top - 1]),
            Part::Box(a, was, known) => stack[top - 1] = all & !diamond(steps, *a, was, known, all & !stack[top - 1]),
        }
    }
    stack[0]
}

/// Appends the formula at a place, operands first, and answers the place after it. What has no variable is worked out there and then, and
/// an operand that makes no difference is left out.
fn arrange(sheet: &[u8], at: usize, steps: &Steps, all: u64, out: &mut Vec<Part>) -> usize {
    match sheet[at] {
        node @ 0..=2 => {
            out.push([Part::Variable, Part::Word(all), Part::Word(0)][node as usize]);
            at + 1
        }
        node @ (3 | 4) => {
            let first = out.len();
            let between = arrange(sheet, at + 1, steps, all, out);
            let second = out.len();
            let after = arrange(sheet, between, steps, all, out);
            join(node, first, second, all, out);
            after
        }
        node => {
            let a = if sheet[at + 1] == 255 { steps.m } else { sheet[at + 1] as usize };
            let after = arrange(sheet, at + 2, steps, all, out);
            let part = match out.last() {
                Some(&Part::Word(f)) => {
                    out.pop();
                    Part::Word(if node == 5 { steps.reaching(a, f) } else { all & !steps.reaching(a, all & !f) })
                }
                _ if node == 5 => Part::Diamond(a, 0, 0),
                _ => Part::Box(a, 0, 0),
            };
            out.push(part);
            after
        }
    }
}

/// The operands of an "and" or "or" start at these parts, the second ends with the last.
fn join(node: u8, first: usize, second: usize, all: u64, out: &mut Vec<Part>) {
    let word = |parts: &[Part]| match parts {
        [Part::Word(w)] => Some(*w),
        _ => None,
    };
    // what decides alone, and what makes no difference
    let (decides, neutral) = if node == 3 { (0, all) } else { (all, 0) };
    match (word(&out[first..second]), word(&out[second..])) {
        (Some(f), Some(g)) => {
            out.truncate(first);
            out.push(Part::Word(if node == 3 { f & g } else { f | g }));
        }
        (Some(f), _) | (_, Some(f)) if f == decides => {
            out.truncate(first);
            out.push(Part::Word(f));
        }
        (Some(f), _) if f == neutral => {
            out.remove(first);
        }
        (_, Some(f)) if f == neutral => {
            out.pop();
        }
        _ => out.push(if node == 3 { Part::And } else { Part::Or }),
    }
}
