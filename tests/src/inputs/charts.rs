//! Charts that follow the layout.

use super::random::Random;
use crate::reference::chart::{Chart, Step};
use std::collections::BTreeSet;

/// A chart with these steps, sorted and each once; mode and action codes drawn.
pub fn chart(r: &mut Random, n: usize, m: usize, steps: impl IntoIterator<Item = (usize, usize, usize)>) -> Chart {
    let modes = (0..n).map(|_| r.byte()).collect();
    let mut codes = BTreeSet::new();
    while codes.len() < m {
        codes.insert(r.byte());
    }
    let mut steps: Vec<Step> =
        steps.into_iter().map(|(s, a, t)| Step { source: s as u8, action: a as u8, target: t as u8 }).collect();
    steps.sort();
    steps.dedup();
    Chart { modes, codes: codes.into_iter().collect(), steps }
}

/// The bytes of n states, m actions and t triples, which are counted upwards from (0, 0, 0); more than the limits too.
pub fn counted(n: usize, m: usize, t: usize) -> Vec<u8> {
    let mut out = vec![n as u8];
    out.extend((0..n).map(|s| s as u8));
    out.push(m as u8);
    // odd codes, so that there is room below each
    out.extend((0..m).map(|a| 2 * a as u8 + 1));
    out.extend((t as u16).to_le_bytes());
    out.extend((0..t).flat_map(|i| [(i / n / m) as u8, (i / n % m) as u8, (i % n) as u8]));
    out
}

/// n states, m actions and t steps, drawn from all. t is at most n * m * n.
pub fn drawn(r: &mut Random, n: usize, m: usize, t: usize) -> Chart {
    let all = n * m * n;
    let mut chosen = BTreeSet::new();
    if 2 * t > all {
        // more than half: each with the chance that the rest needs
        for i in 0..all {
            if r.below(all - i) < t - chosen.len() {
                chosen.insert(i);
            }
        }
    }
    while chosen.len() < t {
        chosen.insert(r.below(all));
    }
    chart(r, n, m, chosen.into_iter().map(|i| (i / n / m, i / n % m, i % n)))
}

/// 0 to 1 to 2 and so on; the last state rests.
pub fn chain(r: &mut Random, n: usize) -> Chart {
    chart(r, n, 1, (1..n).map(|s| (s - 1, 0, s)))
}

/// A ring of n states, one of whose steps bears another action.
pub fn ring(r: &mut Random, n: usize) -> Chart {
    chart(r, n, 2, (0..n).map(|s| (s, (s == n - 1) as usize, (s + 1) % n)))
}

/// Two rings beside each other that differ in one step: in the first every state steps by action 0 and one by action 1 too; in
/// the second every state steps by both, and one by action 0 alone. The rings turn together until the two states meet, so that
/// simulation takes as many rounds as the least common multiple of a and b.
pub fn two_rings(r: &mut Random, a: usize, b: usize) -> Chart {
    let first = (0..a).map(|s| (s, 0, (s + 1) % a)).chain([(0, 1, 1 % a)]);
    let second = (0..b).map(|s| (a + s, 0, a + (s + 1) % b));
    let more = (1..b).map(|s| (a + s, 1, a + (s + 1) % b));
    chart(r, a + b, 2, first.chain(second).chain(more))
}

/// n states in k + 1 layers. Each has a step: in layer 0 by the last action, within the layer; in the others by action 0, to
/// the layer below, but within the top layer where that is `closed`. Beside it every state has the same `common` steps to the
/// top layer. So states of one layer are equal, states of two have a mark one above the lower layer's number, and marks and
/// simulation take k rounds.
pub fn layers(r: &mut Random, n: usize, k: usize, closed: bool, common: usize) -> Chart {
    let layer = classes(r, n, k + 1);
    layered(r, &layer, closed, common)
}

/// For each of n states one of so many classes, each of which has a state.
pub fn classes(r: &mut Random, n: usize, count: usize) -> Vec<usize> {
    let mut class: Vec<usize> = (0..n).map(|i| if i < count { i } else { r.below(count) }).collect();
    r.shuffle(&mut class);
    class
}

/// Such layers, where that of each state is known.
pub fn layered(r: &mut Random, layer: &[usize], closed: bool, common: usize) -> Chart {
    let n = layer.len();
    let k = *layer.iter().max().expect("a state");
    let m = if common == 0 { 2 } else { 32 };
    let members = |l: usize| (0..n).filter(|&s| layer[s] == l).collect::<Vec<_>>();
    let mut steps = Vec::new();
    for (s, &l) in layer.iter().enumerate() {
        let (action, to) = match l {
            _ if closed && l == k => (0, k),
            0 => (m - 1, 0),
            _ => (0, l - 1),
        };
        steps.push((s, action, r.any_of(&members(to))));
    }
    let mut shared = BTreeSet::new();
    while shared.len() < common {
        shared.insert((r.within(1, m - 2), r.any_of(&members(k))));
    }
    steps.extend(shared.into_iter().flat_map(|(a, t)| (0..n).map(move |s| (s, a, t))));
    chart(r, n, m, steps)
}

/// A state for each of these numbers, which are below 64. By each action, of 6, whose bit is set in its number it steps to a state of the
/// same number. So two states are equal where their numbers are, and else have the mark 1.
pub fn numbered(r: &mut Random, numbers: &[usize]) -> Chart {
    let alike = |number: usize| (0..numbers.len()).filter(|&s| numbers[s] == number).collect::<Vec<_>>();
    let mut steps = Vec::new();
    for (s, &number) in numbers.iter().enumerate() {
        for a in (0..6).filter(|a| number >> a & 1 == 1) {
            steps.push((s, a, r.any_of(&alike(number))));
        }
    }
    chart(r, numbers.len(), 6, steps)
}

/// The longest chart of such layers: a step of its own and 15 common ones for each of 64 states, 3,172 bytes.
pub fn longest_layers(r: &mut Random, k: usize, closed: bool) -> Chart {
    layers(r, 64, k, closed, 15)
}

/// A chart with a twin for every state: each step goes to its target, to the target's twin or to both, so that twins are equal.
pub fn twins(r: &mut Random, half: usize, m: usize, t: usize) -> Chart {
    let small = drawn(r, half, m, t);
    let mut steps = Vec::new();
    for s in &small.steps {
        let (p, a, q) = (s.source as usize, s.action as usize, s.target as usize);
        for source in [p, p + half] {
            let which = r.below(3);
            if which != 0 {
                steps.push((source, a, q));
            }
            if which != 1 {
                steps.push((source, a, q + half));
            }
        }
    }
    chart(r, 2 * half, m, steps)
}

/// Up to t steps between blocks of states: of two blocks that a small chart joins, each state of one steps to each of the other, or to
/// most where these are too many. So states of a block are alike or nearly so, and steps have many answers.
pub fn blocks(r: &mut Random, n: usize, m: usize, t: usize) -> Chart {
    let b = r.within(2, 8);
    let joined = r.within(b, b * m * b / 2);
    let small = drawn(r, b, m, joined);
    let block: Vec<usize> = (0..n).map(|_| r.below(b)).collect();
    let of = |i: u8| block.iter().enumerate().filter(move |(_, &b)| b == i as usize).map(|(s, _)| s);
    let all: Vec<_> = small
        .steps
        .iter()
        .flat_map(|step| of(step.source).flat_map(move |s| of(step.target).map(move |u| (s, step.action as usize, u))))
        .collect();
    let mut order: Vec<usize> = (0..all.len()).collect();
    r.shuffle(&mut order);
    order.truncate(t);
    chart(r, n, m, order.into_iter().map(|i| all[i]))
}

/// A longest chart whose steps turn 64 states round: by each of `turns` a state moves so many places along one ring of all of them, and
/// by `part` each steps to itself, but for a few. So a diamond or box by a turn only turns its operand; by `part` a diamond takes
/// these few away, and a box adds them.
pub struct Turning {
    pub chart: Chart,
    pub turns: Vec<u8>,
    pub part: u8,
}

pub fn turning(r: &mut Random, few: usize) -> Turning {
    let mut ring: Vec<usize> = (0..64).collect();
    r.shuffle(&mut ring);
    let mut actions: Vec<usize> = (0..32).collect();
    r.shuffle(&mut actions);
    let (turns, others) = (&actions[..15], &actions[16..]);
    let mut steps = BTreeSet::new();
    for &a in turns {
        let places = r.within(1, 63);
        steps.extend((0..64).map(|i| (ring[i], a, ring[(i + places) % 64])));
    }
    steps.extend(ring[few..].iter().map(|&s| (s, actions[15], s)));
    // by the other actions as many as make the chart a longest one
    while steps.len() < 1024 {
        steps.insert((r.below(64), r.any_of(others), r.below(64)));
    }
    Turning { chart: chart(r, 64, 32, steps), turns: turns.iter().map(|&a| a as u8).collect(), part: actions[15] as u8 }
}

/// 64 states, of which `state` alone steps to itself, by an action of its own; two others step by `action` to one that rests, and the first
/// of them to `state` too. These two are told apart in the second round, by the steps into `state` alone.
pub struct Deciding {
    pub chart: Chart,
    pub first: usize,
    pub second: usize,
}

pub fn deciding(r: &mut Random, state: usize, action: usize) -> Deciding {
    let mut others: Vec<usize> = (0..64).filter(|&s| s != state).collect();
    r.shuffle(&mut others);
    let (first, second, rests) = (others[0], others[1], others[2]);
    let own = (action + r.within(1, 31)) % 32;
    let steps = [(state, own, state), (first, action, state), (first, action, rests), (second, action, rests)];
    Deciding { chart: chart(r, 64, 32, steps), first, second }
}

/// At most one step for each state and action.
pub fn deterministic(r: &mut Random, n: usize, m: usize) -> Chart {
    let mut steps = Vec::new();
    for s in 0..n {
        for a in 0..m {
            if !r.once_in(4) {
                steps.push((s, a, r.below(n)));
            }
        }
    }
    steps.truncate(1024);
    chart(r, n, m, steps)
}

/// Steps lead to later states only.
pub fn forward(r: &mut Random, n: usize, m: usize, t: usize) -> Chart {
    let mut steps = Vec::new();
    for _ in 0..if n > 1 && m > 0 { t } else { 0 } {
        let s = r.below(n - 1);
        steps.push((s, r.below(m), r.within(s + 1, n - 1)));
    }
    chart(r, n, m, steps)
}

/// Any of these shapes, with at most `largest` states.
pub fn any(r: &mut Random, largest: usize) -> Chart {
    let n = r.within(1, largest);
    match r.below(10) {
        0 => chain(r, n),
        1 => ring(r, n),
        2 if n >= 2 => {
            let a = r.within(1, n - 1);
            two_rings(r, a, n - a)
        }
        3 | 4 if n >= 2 => {
            let m = r.within(1, 3);
            let most = ((n / 2) * m * (n / 2)).min(n).min(512);
            let t = r.within(0, most);
            twins(r, n / 2, m, t)
        }
        5 => {
            let m = r.within(0, 3);
            deterministic(r, n, m)
        }
        6 => {
            let (m, t) = (r.within(0, 3), r.within(0, 2 * n));
            forward(r, n, m, t)
        }
        7 => {
            let m = r.within(0, 32);
            let t = r.within(0, (n * m * n).min(1024));
            drawn(r, n, m, t)
        }
        _ => {
            let m = r.within(1, 2);
            let t = r.within(0, (n * m * n).min(3 * n));
            drawn(r, n, m, t)
        }
    }
}

/// The longest chart: 64 states, 32 actions, 1,024 steps, 3,172 bytes.
pub fn longest(r: &mut Random) -> Chart {
    drawn(r, 64, 32, 1024)
}
