//! The archive's answers beside the definitions themselves, on charts so small that everything can be tried: all formulas by
//! depth, all relations, all sets.

use super::equal;
use crate::checker::Checker;
use crate::inputs::{charts, sheets};
use crate::reference::chart::{Chart, Step};
use crate::reference::nearness::matched;
use crate::reference::property::{holds, word};
use crate::reference::sheet::{self, Formula};
use crate::Job;

/// Every chart of n states and m actions.
pub fn each_chart(n: usize, m: usize, share: usize, shares: usize, mut each: impl FnMut(&Chart)) {
    let all = n * m * n;
    for set in (0..1u64 << all).filter(|set| *set as usize % shares == share) {
        let steps = (0..all).filter(|i| set >> i & 1 == 1);
        let steps =
            steps.map(|i| Step { source: (i / n / m) as u8, action: (i / n % m) as u8, target: (i % n) as u8 }).collect();
        each(&Chart { modes: vec![0; n], codes: (0..m as u8).collect(), steps });
    }
}

// ---- formulas, by depth

/// A set of truth vectors: bit v stands for the vector v, whose bit s says whether a formula holds at state s. Five states have
/// 32 vectors.
type Vectors = u32;

fn members(set: Vectors) -> impl Iterator<Item = u32> {
    (0..32).filter(move |v| set >> v & 1 == 1)
}

/// With all that "and" and "or" make of it.
fn closed(mut set: Vectors) -> Vectors {
    loop {
        let before = set;
        for v in members(before) {
            for w in members(before) {
                set |= 1 << (v & w) | 1 << (v | w);
            }
        }
        if set == before {
            return set;
        }
    }
}

/// The vectors of a diamond or a box before each vector of the set, for each action and for 255.
fn one_step(chart: &Chart, set: Vectors) -> Vectors {
    let n = chart.states();
    let mut out = 0;
    for v in members(set) {
        for action in 0..=chart.actions() {
            let steps = || chart.steps.iter().filter(|s| action == chart.actions() || s.action as usize == action);
            let (mut diamond, mut boxed) = (0u32, (1u32 << n) - 1);
            for s in steps() {
                if v >> s.target & 1 == 1 {
                    diamond |= 1 << s.source;
                } else {
                    boxed &= !(1 << s.source);
                }
            }
            out |= 1 << diamond | 1 << boxed;
        }
    }
    out
}

/// For each pair 0 if no formula without variable tells the two apart, and else the smallest depth of one that does.
pub fn smallest_depths(chart: &Chart) -> Vec<u8> {
    let n = chart.states();
    let mut depths = vec![0; n * n];
    // depth 0: true and false
    let mut vectors = closed(1 << ((1u32 << n) - 1) | 1);
    for depth in 1.. {
        let next = closed(vectors | one_step(chart, vectors));
        for v in members(next) {
            for p in 0..n {
                for q in 0..n {
                    if (v >> p & 1) != (v >> q & 1) && depths[p * n + q] == 0 {
                        depths[p * n + q] = depth;
                    }
                }
            }
        }
        if next == vectors {
            break;
        }
        vectors = next;
    }
    depths
}

fn marks_are_depths(c: &mut Checker, chart: &Chart) {
    let n = chart.states();
    let told = c.marks(&chart.bytes(), n * n);
    let depths = smallest_depths(chart);
    let rounds = *depths.iter().max().unwrap() as u64;
    c.expect(told.buffer == depths, || format!("{chart:?}\n  marks {:?}\n  smallest depths {depths:?}", told.buffer));
    c.expect(told.numbers[1] == rounds && rounds < n as u64, || {
        format!("{chart:?}\n  rounds {}, greatest mark {rounds}", told.numbers[1])
    });
    equal::are(c, chart, |p, q| depths[p * n + q] == 0);
    // equal states simulate each other
    let simulation = c.simulation(&chart.bytes(), n * n).buffer;
    let fine = (0..n * n).all(|i| depths[i] != 0 || simulation[i] == 1);
    c.expect(fine, || format!("{chart:?}\n  marks {depths:?}, simulation {simulation:?}"));
}

// ---- relations

/// Zero marks are the union of all strong bisimulations, and so are the rows of equal states; the simulation is the union of all
/// simulations.
fn unions_of_relations(c: &mut Checker, chart: &Chart) {
    let n = chart.states();
    let steps = chart.steps_by_source();
    let (mut bisimilar, mut simulated) = (0u32, 0u32);
    for s in 0..1u32 << (n * n) {
        let related = |p: usize, q: usize| s >> (p * n + q) & 1 == 1;
        let pairs = || (0..n * n).map(|i| (i / n, i % n)).filter(|&(p, q)| related(p, q));
        if pairs().all(|(p, q)| matched(&steps[p], &steps[q], related)) {
            simulated |= s;
            if pairs().all(|(p, q)| matched(&steps[q], &steps[p], |y, x| related(x, y))) {
                bisimilar |= s;
            }
        }
    }
    let cells = |f: &dyn Fn(usize) -> bool| (0..n * n).map(|i| (f(i) as u32) << i).sum::<u32>();
    let told = c.marks(&chart.bytes(), n * n);
    c.expect(cells(&|i| told.buffer[i] == 0) == bisimilar, || {
        format!("{chart:?}\n  marks {:?}, bisimilar {bisimilar:b}", told.buffer)
    });
    equal::are(c, chart, |p, q| bisimilar >> (p * n + q) & 1 == 1);
    let told = c.simulation(&chart.bytes(), n * n);
    c.expect(cells(&|i| told.buffer[i] == 1) == simulated, || {
        format!("{chart:?}\n  {:?}, simulated {simulated:b}", told.buffer)
    });
}

// ---- sets

/// The least solution is the intersection of all T with F(T) inside T, the greatest the union of all T inside F(T).
pub fn by_all_sets(chart: &Chart, formula: &Formula) -> [u64; 2] {
    let n = chart.states();
    let apply = |t: u64| word(&holds(chart, formula, &(0..n).map(|s| t >> s & 1 == 1).collect()));
    let all = (1u64 << n) - 1;
    let (mut least, mut greatest) = (all, 0);
    for t in 0..=all {
        let applied = apply(t);
        if applied & !t == 0 {
            least &= t;
        }
        if t & !applied == 0 {
            greatest |= t;
        }
    }
    [least, greatest]
}

fn solutions(c: &mut Checker, chart: &Chart, bytes: &[u8]) {
    let n = chart.states();
    let sheet = sheet::read(bytes, chart.actions()).unwrap();
    let [least, greatest] = by_all_sets(chart, &sheet.formula);
    // kind 0 is read as least
    let solution = if sheet.kind == 2 { greatest } else { least };
    let told = c.property(&chart.bytes(), bytes);
    let fine = told.numbers[..2] == [solution, solution.count_ones() as u64] && told.numbers[2] <= n as u64;
    c.expect(fine, || format!("{chart:?} {bytes:?}\n  told {:?}, solution {solution}", &told.numbers[..3]));
    if sheet.variable_at.is_none() && sheet.formula != Formula::True && sheet.formula != Formula::False {
        c.expect(told.numbers[2] <= 1, || format!("{chart:?} {bytes:?}\n  {} rounds without a variable", told.numbers[2]));
    }
}

// ---- drawn charts

fn drawn_by_depth(c: &mut Checker) {
    for _ in 0..2_500 {
        let (n, m) = (c.random.within(1, 5), c.random.within(0, 3));
        let t = c.random.within(0, (n * m * n).min(12));
        let chart = charts::drawn(&mut c.random, n, m, t);
        marks_are_depths(c, &chart);
    }
}

fn drawn_relations(c: &mut Checker) {
    for _ in 0..150 {
        let t = c.random.within(0, 9);
        let chart = charts::drawn(&mut c.random, 3, 2, t);
        unions_of_relations(c, &chart);
    }
}

fn drawn_sets(c: &mut Checker) {
    for _ in 0..2_500 {
        let chart = charts::any(&mut c.random, 5);
        let sheet = sheets::any(&mut c.random, 12, chart.actions());
        solutions(c, &chart, &sheet);
    }
}

fn all_small_charts(c: &mut Checker, n: usize, m: usize) {
    each_chart(n, m, 0, 1, |chart| {
        marks_are_depths(c, chart);
        unions_of_relations(c, chart);
    });
}

pub fn jobs() -> Vec<Job> {
    let mut jobs = Vec::new();
    for share in 0..8 {
        jobs.push(Job {
            name: "definitions: formulas by depth, four states",
            run: Box::new(move |c| each_chart(4, 1, share, 8, |chart| marks_are_depths(c, chart))),
        });
        jobs.push(Job { name: "definitions: formulas by depth, drawn", run: Box::new(drawn_by_depth) });
        jobs.push(Job { name: "definitions: all relations, drawn", run: Box::new(drawn_relations) });
        jobs.push(Job { name: "definitions: all sets, drawn", run: Box::new(drawn_sets) });
    }
    for (n, m) in [(1, 0), (1, 1), (1, 2), (2, 1), (2, 2), (3, 1)] {
        jobs.push(Job { name: "definitions: all small charts", run: Box::new(move |c| all_small_charts(c, n, m)) });
    }
    jobs
}
