//! What is timed.

use std::collections::BTreeSet;

/// What is asked of a question in each of its cases, or in one that stands apart: the archive's time is at most so many times that of the
/// same shape, and that of words where anything is asked of it.
pub struct Asked {
    pub question: &'static str,
    pub same: f64,
    pub words: Option<f64>,
}

pub const MARKS: Asked = Asked { question: "marks", same: 2.0, words: Some(1.2) };
pub const SIMULATION: Asked = Asked { question: "simulation", same: 2.0, words: Some(1.2) };
/// Of two rings, where a round changes little and there are 1,023: what a relation costs that is handed over by value shows there.
pub const SIMULATION_OF_RINGS: Asked = Asked { words: Some(1.4), ..SIMULATION };
pub const EQUAL_ROWS: Asked = Asked { question: "equal rows", same: 2.0, words: Some(3.0) };
pub const EQUAL_PAIRS: Asked = Asked { question: "equal pairs", same: 2.0, words: Some(3.0) };
pub const PROPERTY: Asked = Asked { question: "property", same: 1.5, words: Some(1.2) };
pub const BOTH: Asked = Asked { question: "both", same: 2.0, words: Some(3.0) };
pub const SHORT_FORM: Asked = Asked { question: "short form", same: 1.5, words: None };
pub const COMPARE: Asked = Asked { question: "compare", same: 2.0, words: Some(3.0) };
pub const REASONS: Asked = Asked { question: "reasons", same: 2.0, words: Some(3.0) };
pub const CHECK: Asked = Asked { question: "check", same: 2.0, words: Some(3.0) };

/// Numbers that look random and are the same in every run (splitmix64).
pub struct Random(pub u64);

impl Random {
    pub fn below(&mut self, bound: usize) -> usize {
        self.0 = self.0.wrapping_add(0x9e37_79b9_7f4a_7c15);
        let mut z = self.0;
        z = (z ^ (z >> 30)).wrapping_mul(0xbf58_476d_1ce4_e5b9);
        z = (z ^ (z >> 27)).wrapping_mul(0x94d0_49bb_1331_11eb);
        ((z ^ (z >> 31)) >> 32) as usize % bound
    }
}

fn chart(n: usize, m: usize, steps: impl IntoIterator<Item = (usize, usize, usize)>) -> Vec<u8> {
    let steps: BTreeSet<_> = steps.into_iter().collect();
    let mut out = vec![n as u8];
    out.extend(0..n as u8);
    out.push(m as u8);
    out.extend(0..m as u8);
    out.extend((steps.len() as u16).to_le_bytes());
    for (s, a, t) in steps {
        out.extend([s as u8, a as u8, t as u8]);
    }
    out
}

/// t steps, drawn.
pub fn drawn(n: usize, m: usize, t: usize) -> Vec<u8> {
    drawn_from(1, n, m, t)
}

/// Others from another seed.
pub fn drawn_from(seed: u64, n: usize, m: usize, t: usize) -> Vec<u8> {
    let mut r = Random(seed);
    let mut steps = BTreeSet::new();
    while steps.len() < t {
        steps.insert((r.below(n), r.below(m), r.below(n)));
    }
    chart(n, m, steps)
}

pub fn e() -> Vec<u8> {
    chart(6, 3, [(0, 0, 2), (1, 0, 3), (1, 0, 4), (2, 1, 5), (2, 2, 5), (3, 1, 5), (4, 2, 5)])
}

/// 0 to 1 to 2 and so on; the last state rests.
pub fn chain(n: usize) -> Vec<u8> {
    chart(n, 1, (1..n).map(|s| (s - 1, 0, s)))
}

/// A ring, one of whose steps bears another action.
pub fn ring(n: usize) -> Vec<u8> {
    chart(n, 2, (0..n).map(|s| (s, (s == n - 1) as usize, (s + 1) % n)))
}

/// 64 states in a ring of so many classes, each state with a step to every one of the next class: those of a class are equal. The steps
/// of one class bear another action.
pub fn ring_of_classes(classes: usize) -> Vec<u8> {
    let next = |s: usize| (0..64).filter(move |t| t % classes == (s + 1) % classes);
    chart(64, 2, (0..64).flat_map(|s| next(s).map(move |t| (s, (s % classes == classes - 1) as usize, t))))
}

/// Two rings that differ in one step: the first has action 1 at one state only, the second at every state but one.
pub fn two_rings(a: usize, b: usize) -> Vec<u8> {
    let first = (0..a).map(|s| (s, 0, (s + 1) % a)).chain([(0, 1, 1)]);
    let second = (0..b).map(|s| (a + s, 0, a + (s + 1) % b));
    let more = (1..b).map(|s| (a + s, 1, a + (s + 1) % b));
    chart(a + b, 2, first.chain(second).chain(more))
}

/// 64 states, each with four steps by each of four actions, but for the last, which has none by action 3: every pair has much to
/// match, and the difference comes through late.
pub fn nearly_alike() -> Vec<u8> {
    let mut r = Random(2);
    let mut steps = BTreeSet::new();
    for s in 0..64 {
        for a in 0..if s == 63 { 3 } else { 4 } {
            // only state 62 has a step to 63, only 61 one to 62, and so on
            let late = if a == 0 && s >= 48 { s + 1 } else { r.below(48) };
            let mut targets = BTreeSet::from([late % 64]);
            while targets.len() < 4 {
                targets.insert(r.below(48));
            }
            steps.extend(targets.into_iter().map(|t| (s, a, t)));
        }
    }
    chart(64, 4, steps)
}

pub fn e_sheet() -> Vec<u8> {
    vec![1, 1, 6, 6, 0, 3, 5, 1, 1, 5, 2, 1]
}

/// At rest, or some step to X, least: a chain of n takes n rounds.
pub fn reach_rest() -> Vec<u8> {
    vec![1, 1, 5, 4, 6, 255, 2, 5, 255, 0]
}

/// 200 nodes: 39 times "or, diamond 255 diamond 0 diamond 255 X" before the same.
pub fn long_reach_rest() -> Vec<u8> {
    let mut out = vec![1, 1, 200];
    for _ in 0..39 {
        out.extend([4, 5, 255, 5, 0, 5, 255, 0]);
    }
    out.extend([4, 6, 255, 2, 5, 255, 0]);
    out
}

/// A formula of 200 nodes, drawn.
pub fn drawn_sheet(m: usize) -> Vec<u8> {
    let mut r = Random(3);
    let mut out = vec![1, 2, 200];
    formula(&mut r, 200, m, &mut out);
    out
}

fn formula(r: &mut Random, nodes: usize, m: usize, out: &mut Vec<u8>) {
    if nodes == 1 {
        out.push([0, 0, 1, 2][r.below(4)]);
    } else if nodes == 2 || r.below(2) == 0 {
        out.push([5, 6][r.below(2)]);
        out.push(if r.below(3) == 0 { 255 } else { r.below(m) as u8 });
        formula(r, nodes - 1, m, out);
    } else {
        out.push([3, 4][r.below(2)]);
        let first = 1 + r.below(nodes - 2);
        formula(r, first, m, out);
        formula(r, nodes - 1 - first, m, out);
    }
}

/// Diamonds and boxes in turn, by all actions, before the last of so many nodes.
fn nested(nodes: u8, last: u8) -> Vec<u8> {
    let mut out = vec![1, 2, nodes];
    for i in 0..nodes - 1 {
        out.extend([5 + i % 2, 255]);
    }
    out.push(last);
    out
}

/// 200 nodes, the last of them X.
pub fn nested_sheet() -> Vec<u8> {
    nested(200, 0)
}

/// No variable: the last node is true.
pub fn closed_sheet(nodes: u8) -> Vec<u8> {
    nested(nodes, 1)
}
