//! The fastest that we know, unverified: sets of states as 64-bit words, and work only where the last round changed something.

use crate::read::{self, Shape};

/// The members of a set.
pub fn members(mut set: u64) -> impl Iterator<Item = usize> {
    std::iter::from_fn(move || {
        if set == 0 {
            return None;
        }
        let s = set.trailing_zeros() as usize;
        set &= set - 1;
        Some(s)
    })
}

/// For each action and state the states that a step leads to, and those that it comes from.
pub struct Steps {
    n: usize,
    m: usize,
    to: Vec<u64>,
    /// With one action more, number m, for all of them together.
    from: Vec<u64>,
}

impl Steps {
    pub fn new(chart: &[u8], shape: Shape) -> Steps {
        let mut steps = Steps::none(shape.n, shape.m);
        for triple in chart[shape.at..].chunks_exact(3) {
            steps.add(triple[0] as usize, triple[1] as usize, triple[2] as usize);
        }
        steps
    }

    pub fn none(n: usize, m: usize) -> Steps {
        Steps { n, m, to: vec![0; n * m], from: vec![0; n * m + n] }
    }

    pub fn add(&mut self, source: usize, action: usize, target: usize) {
        let (n, m) = (self.n, self.m);
        self.to[action * n + source] |= 1 << target;
        self.from[action * n + target] |= 1 << source;
        self.from[m * n + target] |= 1 << source;
    }

    pub fn to(&self, a: usize, s: usize) -> u64 {
        self.to[a * self.n + s]
    }

    fn from(&self, a: usize, s: usize) -> u64 {
        self.from[a * self.n + s]
    }

    /// The states with an a-step into the set.
    pub fn reaching(&self, a: usize, set: u64) -> u64 {
        members(set).fold(0, |so_far, s| so_far | self.from(a, s))
    }

    /// The states, of those that are able to an a-step, with none into `near` any more, from which the states of `fallen` have gone.
    fn lost(&self, a: usize, able: u64, near: u64, fallen: u64) -> u64 {
        if near.count_ones() <= fallen.count_ones() {
            return able & !self.reaching(a, near);
        }
        let candidates = members(self.reaching(a, fallen));
        candidates.filter(|&q| self.to(a, q) & near == 0).fold(0, |so_far, q| so_far | 1 << q)
    }
}

/// Rounds of splitting: two states stay together where they have the same steps into every block. Only the blocks that the last
/// round made can split any further, and only states that are not alone in theirs. What falls from a state's block is told, with
/// the round and the blocks before it. Answers the blocks and the rounds.
pub fn split(steps: &Steps, mut falls: impl FnMut(usize, u64, u8, &[u64; 64])) -> ([u64; 64], u64) {
    let all = read::all(steps.n);
    let mut near = [all; 64];
    let mut made = vec![all];
    let mut open = if steps.n > 1 { all } else { 0 };
    let mut rounds = 0;
    while open != 0 {
        let before = near;
        for &block in &made {
            for a in 0..steps.m {
                let able = steps.reaching(a, block);
                if able & open != 0 && able & open != open {
                    for p in members(open) {
                        near[p] &= if able >> p & 1 == 1 { able } else { !able };
                    }
                }
            }
        }
        made.clear();
        for p in members(open) {
            let fallen = before[p] & !near[p];
            if fallen != 0 {
                falls(p, fallen, rounds + 1, &before);
                if near[p].trailing_zeros() as usize == p {
                    made.push(near[p]);
                }
            }
            if near[p] & (near[p] - 1) == 0 {
                open &= !(1 << p);
            }
        }
        if made.is_empty() {
            break;
        }
        rounds += 1;
    }
    (near, rounds as u64)
}

#[inline(never)]
pub fn marks(chart: &[u8], buffer: &mut [u8]) -> Option<u64> {
    let shape = read::chart(chart)?;
    let n = shape.n;
    buffer.get_mut(..n * n)?.fill(0);
    let (_, rounds) = split(&Steps::new(chart, shape), |p, fallen, k, _| {
        for q in members(fallen) {
            buffer[p * n + q] = k;
        }
    });
    Some(rounds)
}

/// One round of simulation: `next[p]` becomes what falls from `near[p]`, given what fell in the last round, from the states of
/// `changed`. Answers the states from which something falls.
fn fall(steps: &Steps, able: &[u64], near: &[u64; 64], fallen: &[u64; 64], changed: u64, next: &mut [u64; 64]) -> u64 {
    let mut next_changed = 0;
    for x in members(changed) {
        for (a, &able) in able.iter().enumerate() {
            let sources = steps.from(a, x);
            if sources == 0 {
                continue;
            }
            let lost = steps.lost(a, able, near[x], fallen[x]);
            for p in members(sources) {
                let falls = lost & near[p];
                if falls != 0 {
                    next[p] |= falls;
                    next_changed |= 1 << p;
                }
            }
        }
    }
    next_changed
}

/// `near[p]` is the states that simulate p. A state q that had an a-step to one that fell from `near[x]` in the last round falls
/// from `near[p]`, for each p with an a-step to x, where it has no other a-step into `near[x]`.
#[inline(never)]
pub fn simulation(chart: &[u8], buffer: &mut [u8]) -> Option<u64> {
    let shape = read::chart(chart)?;
    let n = shape.n;
    let cells = buffer.get_mut(..n * n)?;
    let steps = Steps::new(chart, shape);
    let all = read::all(n);
    let mut near = [all; 64];
    let able: Vec<u64> = (0..steps.m).map(|a| steps.reaching(a, all)).collect();
    for &able in &able {
        for p in members(able) {
            near[p] &= able;
        }
    }
    let mut fallen = near.map(|row| all & !row);
    let mut changed = (0..n).filter(|&p| fallen[p] != 0).fold(0u64, |so_far, p| so_far | 1 << p);
    let mut rounds = 0;
    while changed != 0 {
        rounds += 1;
        let mut next = [0; 64];
        changed = fall(&steps, &able, &near, &fallen, changed, &mut next);
        for p in members(changed) {
            near[p] &= !next[p];
        }
        fallen = next;
    }
    for p in 0..n {
        for q in 0..n {
            cells[p * n + q] = (near[p] >> q & 1) as u8;
        }
    }
    Some(rounds)
}

#[derive(Clone, Copy)]
enum Part {
    Word(u64),
    Variable,
    And,
    Or,
    /// By this action, or by all where it is m.
    Diamond(usize),
    Box(usize),
}

/// The formula is taken apart once, operands first; what has no variable is worked out there and then.
#[inline(never)]
pub fn property(chart: &[u8], sheet: &[u8]) -> Option<(u64, u64, u64)> {
    let shape = read::chart(chart)?;
    let kind = read::sheet(sheet, shape.m)?;
    let all = read::all(shape.n);
    let steps = Steps::new(chart, shape);
    let mut parts = Vec::with_capacity(200);
    arrange(sheet, 3, &steps, all, &mut parts);
    let mut set = read::first_set(kind, shape.n);
    let mut rounds = 0;
    let mut stack = [0; 200];
    loop {
        apply(&parts, &steps, all, set, &mut stack);
        if stack[0] == set {
            return Some((set, set.count_ones() as u64, rounds));
        }
        set = stack[0];
        rounds += 1;
    }
}

/// Leaves the word of the formula at the bottom of the stack.
fn apply(parts: &[Part], steps: &Steps, all: u64, set: u64, stack: &mut [u64; 200]) {
    let mut top = 0;
    for &part in parts {
        match part {
            Part::Word(w) => {
                stack[top] = w;
                top += 1;
            }
            Part::Variable => {
                stack[top] = set;
                top += 1;
            }
            Part::And => {
                top -= 1;
                stack[top - 1] &= stack[top];
            }
            Part::Or => {
                top -= 1;
                stack[top - 1] |= stack[top];
            }
            Part::Diamond(a) => stack[top - 1] = steps.reaching(a, stack[top - 1]),
            Part::Box(a) => stack[top - 1] = all & !steps.reaching(a, all & !stack[top - 1]),
        }
    }
}

/// Appends the formula at a place, operands first, and answers the place after it.
fn arrange(sheet: &[u8], at: usize, steps: &Steps, all: u64, out: &mut Vec<Part>) -> usize {
    let action = |byte: u8| if byte == 255 { steps.m } else { byte as usize };
    match sheet[at] {
        node @ 0..=2 => {
            out.push([Part::Variable, Part::Word(all), Part::Word(0)][node as usize]);
            at + 1
        }
        node @ (3 | 4) => {
            let between = arrange(sheet, at + 1, steps, all, out);
            let after = arrange(sheet, between, steps, all, out);
            match out[..] {
                [.., Part::Word(f), Part::Word(g)] => {
                    out.truncate(out.len() - 2);
                    out.push(Part::Word(if node == 3 { f & g } else { f | g }));
                }
                _ => out.push(if node == 3 { Part::And } else { Part::Or }),
            }
            after
        }
        node => {
            let a = action(sheet[at + 1]);
            let after = arrange(sheet, at + 2, steps, all, out);
            match out.last() {
                Some(&Part::Word(f)) => {
                    out.pop();
                    let word = if node == 5 { steps.reaching(a, f) } else { all & !steps.reaching(a, all & !f) };
                    out.push(Part::Word(word));
                }
                _ => out.push(if node == 5 { Part::Diamond(a) } else { Part::Box(a) }),
            }
            after
        }
    }
}
