//! Competing faults of two charts, with the refusal that document 02's order gives: the first chart's, the second's, 18, 19, 20,
//! and 14.

use super::super::order::faulty;
use crate::checker::{Checker, Refused};
use crate::inputs::charts::counted;
use crate::Job;

/// Nothing where all is good.
type Refusal = Option<Refused>;

/// A good chart of two triples or more, as it is, and once for each refusal of a chart, as the first of two; 6 for each byte of a
/// triple.
fn each_fault(good: &[u8]) -> Vec<(Vec<u8>, Refusal)> {
    let (n, m) = (good[0] as usize, good[1 + good[0] as usize] as usize);
    let first = n + m + 4;
    let changed = |at: usize, to: &[u8]| {
        let mut out = good.to_vec();
        out[at..at + to.len()].copy_from_slice(to);
        out
    };
    let twice = [&good[first..first + 3]; 2].concat();
    let faults = [
        (good[..good.len() - 1].to_vec(), 1, good.len() - 1, 0),
        (changed(0, &[0]), 2, 0, 0),
        (changed(n + 1, &[33]), 3, n + 1, 0),
        (changed(n + 3, &good[n + 2..n + 3]), 4, n + 3, 0),
        (changed(first - 2, &1025u16.to_le_bytes()), 5, first - 2, 0),
        (changed(first, &[n as u8]), 6, 0, 0),
        (changed(first + 4, &[m as u8]), 6, 1, 1),
        (changed(first + 5, &[255]), 6, 1, 2),
        (changed(first, &twice), 7, 1, 0),
        ([good, &[0]].concat(), 8, good.len(), 0),
    ];
    let faults = faults.into_iter().map(|(chart, number, place, byte)| (chart, Some((0, number, place as u64, byte))));
    [(good.to_vec(), None)].into_iter().chain(faults).collect()
}

/// Two good charts that have too many states together, too many codes, too many transitions, or not.
fn charts(states: bool, codes: bool, transitions: bool) -> [Vec<u8>; 2] {
    let (n1, n2) = if states { (33, 32) } else { (6, 6) };
    let first = counted(n1, if codes { 17 } else { 16 }, if transitions { 513 } else { 512 });
    let mut second = counted(n2, 16, 512);
    // even codes, where the first has odd ones
    second[2 + n2..18 + n2].iter_mut().for_each(|code| *code -= 1);
    [first, second]
}

/// Every fault of the first with every fault of the second, with or without each of the others and with no room, too little and
/// enough.
fn all(c: &mut Checker, [states, codes, transitions]: [bool; 3]) {
    let [first, second] = charts(states, codes, transitions);
    for (first, of_first) in each_fault(&first) {
        for (second, of_second) in each_fault(&second) {
            for buffer in [0, 2, 67] {
                let order: [Refusal; 6] = [
                    of_first,
                    of_second.map(|(_, number, place, byte)| (3, number, place, byte)),
                    states.then_some((2, 18, 0, 0)),
                    codes.then_some((2, 19, 0, 0)),
                    transitions.then_some((2, 20, 0, 0)),
                    (buffer < 3).then_some((2, 14, 0, 0)),
                ];
                let told = c.compare(&first, &second, buffer);
                let due = order.into_iter().flatten().next();
                c.expect(told.refusal() == due, || format!("{order:?}: told {:?}", told.refusal()));
            }
        }
    }
}

/// Each faulty chart of document 01's order beside each.
fn both_faulty(c: &mut Checker) {
    for (what, first, [number, place, byte]) in faulty() {
        for (_, second, _) in faulty() {
            let told = c.pair(&first, &second);
            c.expect_refused(what, &told, (0, number, place, byte));
        }
    }
}

pub fn jobs() -> Vec<Job> {
    let mut jobs = vec![Job { name: "comparison: both faulty", run: Box::new(both_faulty) }];
    for set in 0..8 {
        let too_many = [0, 1, 2].map(|bit| set >> bit & 1 == 1);
        jobs.push(Job { name: "comparison: order", run: Box::new(move |c| all(c, too_many)) });
    }
    jobs
}
