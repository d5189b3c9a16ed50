//! Every mark of the start states, every number of rounds, and lists of every length, all with 64 states together and with the
//! answer known beforehand.

use super::super::shared;
use super::{answered, expect_list, list};
use crate::checker::Checker;
use crate::inputs::{charts, pairs};
use crate::reference::chart::Chart;
use crate::Job;

/// Two charts with these codes in common, and others that no step bears.
fn with_codes(c: &mut Checker, charts: [Chart; 2], codes: &[u8]) -> [Chart; 2] {
    charts.map(|chart| {
        let more = c.random.below(15);
        pairs::with_more_codes(&mut c.random, &Chart { codes: codes.to_vec(), ..chart }, more)
    })
}

/// A loop beside a chain of k states to one that steps by another action too: the starts have mark k, after k rounds. The other
/// states loop, and stand in either chart.
fn starts(c: &mut Checker, k: usize) {
    let looping = c.random.within(1, 64 - k.max(1));
    let (n1, n2) = (looping, 64 - looping);
    let chain = (0..n2).map(|s| (s, 0, if s + 1 < k { s + 1 } else { s })).chain((k > 0).then(|| (k - 1, 1, 0)));
    let first = charts::chart(&mut c.random, n1, 2, (0..n1).map(|s| (s, 0, s)));
    let second = charts::chart(&mut c.random, n2, 2, chain);
    let both = with_codes(c, [first, second], &[7, 8]);
    let told = answered(c, &both);
    // where there is no loop beside the chain, the first's loops have no partner either
    let alone = [if n2 == k { (0..n1).collect() } else { vec![] }, (0..k).collect()];
    expect_list(c, "a chain beside loops", &told, k, &list(k, &alone));
    let told = answered(c, &[both[1].clone(), both[0].clone()]);
    expect_list(c, "loops beside a chain", &told, k, &list(k, &[alone[1].clone(), alone[0].clone()]));
}

/// n states in layers from 0 to the top, and the layer of each. A state of layer 0 steps to itself by the second action; any other
/// steps by the first to one or two states of the layer below. So states of one layer are equal, in whatever chart, and states of
/// two have a mark one above the lower layer's number.
fn of_layers(c: &mut Checker, n: usize, top: usize) -> (Chart, Vec<usize>) {
    let mut layer: Vec<usize> = (0..n).map(|i| if i <= top { i } else { c.random.below(top + 1) }).collect();
    c.random.shuffle(&mut layer);
    let mut steps = Vec::new();
    for (s, &l) in layer.iter().enumerate() {
        let below: Vec<usize> = (0..n).filter(|&t| layer[t] + 1 == l).collect();
        for _ in 0..2 {
            steps.push(if l == 0 { (s, 1, s) } else { (s, 0, c.random.any_of(&below)) });
        }
    }
    (charts::chart(&mut c.random, n, 2, steps), layer)
}

/// k + 1 layers beside some of them: the states of the others have no partner.
fn layers(c: &mut Checker, k: usize) {
    for _ in 0..4 {
        let n1 = c.random.within(k + 1, 63);
        let n2 = 64 - n1;
        let top = c.random.within(0, k.min(n2 - 1));
        let ((first, layer1), (second, layer2)) = (of_layers(c, n1, k), of_layers(c, n2, top));
        let start = if layer1[0] == layer2[0] { 0 } else { layer1[0].min(layer2[0]) + 1 };
        let alone: Vec<usize> = (0..n1).filter(|&s| layer1[s] > top).collect();
        let [first, second] = with_codes(c, [first, second], &[4, 90]);
        let told = answered(c, &[first.clone(), second.clone()]);
        expect_list(c, "layers beside fewer", &told, k, &list(start, &[alone.clone(), vec![]]));
        let told = answered(c, &[second, first]);
        expect_list(c, "layers beside more", &told, k, &list(start, &[vec![], alone]));
    }
}

/// Rings of a and b states, which have no divisor in common, some of which step by another action too. Read round and round they
/// agree in a + b - 2 states, and no further: as many as two rings can that are not equal.
fn rings(c: &mut Checker, a: usize) {
    let b = 64 - a;
    if a % 2 == 0 {
        return;
    }
    let same = a + b - 2;
    let mut letter: Vec<usize> = (0..same.max(a).max(b)).collect();
    // what stands a or b further on is the same
    for _ in 0..64 {
        for (i, step) in (0..same).flat_map(|i| [(i, a), (i, b)]).filter(|(i, step)| i + step < same) {
            let least = letter[i].min(letter[i + step]);
            (letter[i], letter[i + step]) = (least, least);
        }
    }
    let ring = |n: usize| (0..n).map(move |s| (s, 0, (s + 1) % n));
    let marked = |n: usize| (0..n).filter(|&s| letter[s] != 0).map(|s| (s, 1, s)).collect::<Vec<_>>();
    let first = charts::chart(&mut c.random, a, 2, ring(a).chain(marked(a)));
    let second = charts::chart(&mut c.random, b, 2, ring(b).chain(marked(b)));
    let both = with_codes(c, [first, second], &[20, 30]);
    let told = answered(c, &both);
    expect_list(c, "two rings", &told, 63, &list(63, &[(0..a).collect(), (0..b).collect()]));
}

/// Each state loops, by an action that both charts have or by one that only its own has: so many of the first have no partner,
/// with any number of the second. Where all of the first have none, so have all of the second.
fn alone(c: &mut Checker, n1: usize) {
    for (n2, j) in [63, 64].into_iter().flat_map(|n| (0..=n1).map(move |j| (n - n1, j))) {
        if n2 == 0 {
            continue;
        }
        let i = if j == n1 { n2 } else { c.random.below(n2) };
        let alone = [(n1, j), (n2, i)].map(|(n, count)| {
            let mut states: Vec<usize> = (0..n).collect();
            c.random.shuffle(&mut states);
            states.truncate(count);
            states.sort();
            states
        });
        let [first, second] = [(n1, &alone[0]), (n2, &alone[1])]
            .map(|(n, alone)| charts::chart(&mut c.random, n, 2, (0..n).map(|s| (s, alone.contains(&s) as usize, s))));
        let both = [Chart { codes: vec![7, 8], ..first }, Chart { codes: vec![7, 9], ..second }];
        let told = answered(c, &both);
        let start = alone.iter().any(|states| states.first() == Some(&0)) as usize;
        let rounds = alone.iter().any(|states| !states.is_empty()) as usize;
        expect_list(c, "states without a partner", &told, rounds, &list(start, &alone));
    }
}

pub fn jobs() -> Vec<Job> {
    shared([
        ("comparison: marks of the start states", 0..=63, starts),
        ("comparison: layers beside fewer", 0..=62, layers),
        ("comparison: two rings", 1..=63, rings),
        ("comparison: states without a partner", 1..=63, alone),
    ])
}
