//! Which states are equal, and how many pairs: document 02, T-07. Charts whose classes are known beforehand, among them such that one
//! word of the table of steps decides, of marks and simulation too; and the laws, beside the archive's marks and simulation. What must be
//! reached stands in src/reach/equal.rs and src/reach/relations.rs. Small charts beside all formulas and all relations are in
//! definitions.rs; refusals in places.rs, lines.rs, damaged.rs and small.rs, their order in order.rs, boards in boards.rs.

use super::shared;
use crate::archive::Rows;
use crate::checker::Checker;
use crate::inputs::charts::{self, Deciding};
use crate::reference::chart::Chart;
use crate::Job;

/// The rows have exactly these pairs, and the other question tells how many they are.
pub fn are(c: &mut Checker, chart: &Chart, equal: impl Fn(usize, usize) -> bool) {
    let n = chart.states();
    let row = |p: usize| (0..n).filter(|&q| equal(p, q)).fold(0, |row, q| row | 1 << q);
    let rows: Rows = std::array::from_fn(|p| if p < n { row(p) } else { 0 });
    let count = (0..n * n).filter(|i| equal(i / n, i % n)).count() as u64;
    let [told, pairs] = c.equal(&chart.bytes());
    let fine = told.code == 0 && told.rows == rows && told.numbers[0] == n as u64;
    c.expect(fine, || format!("{chart:?}\n  states {} rows {:x?}\n  expected {rows:x?}", told.numbers[0], told.rows));
    let fine = pairs.code == 0 && pairs.numbers[0] == count;
    c.expect(fine, || format!("{chart:?}\n  pairs {}, expected {count}", pairs.numbers[0]));
}

/// States are equal where their classes are: told apart in the first round, and as layers in as many rounds as can be.
fn by_class(c: &mut Checker, class: &[usize]) {
    let numbered = charts::numbered(&mut c.random, class);
    let closed = c.random.once_in(2);
    let layered = charts::layered(&mut c.random, class, closed, 0);
    for chart in [numbered, layered] {
        are(c, &chart, |p, q| class[p] == class[q]);
    }
}

/// So many classes of 64 states and of 63, and of a longest chart.
fn classes(c: &mut Checker, count: usize) {
    for n in [64, 63] {
        let class = charts::classes(&mut c.random, n, count.min(n));
        by_class(c, &class);
    }
    let class = charts::classes(&mut c.random, 64, count);
    let longest = charts::layered(&mut c.random, &class, true, 15);
    are(c, &longest, |p, q| class[p] == class[q]);
}

/// Of 64 states only this one and a later one are equal.
fn only_pair(c: &mut Checker, p: usize) {
    for q in p + 1..64 {
        let mut class = charts::classes(&mut c.random, 63, 63);
        class.insert(q, class[p]);
        let chart = charts::numbered(&mut c.random, &class);
        are(c, &chart, |p, q| class[p] == class[q]);
    }
}

/// So many states, all of which are equal, and none.
fn all_or_none(c: &mut Checker, n: usize) {
    for count in [1, n] {
        let class = charts::classes(&mut c.random, n, count);
        by_class(c, &class);
    }
}

/// One class of so many of 64 states, and the others together, each alone, or in any.
fn one_large(c: &mut Checker, size: usize) {
    let others = 64 - size;
    for count in [1.min(others), others, c.random.within(others.min(1), others)] {
        let mut class: Vec<usize> = if count == 0 { vec![] } else { charts::classes(&mut c.random, others, count) };
        class.resize(64, count);
        c.random.shuffle(&mut class);
        by_class(c, &class);
    }
}

/// By each action in turn, the steps into this state tell two states apart, and so the first simulates the second and not the other way
/// round. Four classes: this state, each of the two, and those that rest.
fn deciding(c: &mut Checker, state: usize) {
    for action in 0..32 {
        let Deciding { chart, first, second } = charts::deciding(&mut c.random, state, action);
        let class = |p: usize| [state, first, second].iter().position(|&s| s == p);
        are(c, &chart, |p, q| class(p) == class(q));
        let (marks, simulation) = (c.marks(&chart.bytes(), 4096), c.simulation(&chart.bytes(), 4096));
        let cells = [64 * first + second, 64 * second + first];
        c.expect(cells.map(|cell| marks.buffer[cell]) == [2, 2], || format!("{chart:?}\n  {first} and {second}: not 2"));
        c.expect(cells.map(|cell| simulation.buffer[cell]) == [0, 1], || format!("{chart:?}\n  {first} and {second}"));
    }
}

/// A row has its own state and no bit from n on; a row of a state that it has is the same, so that the rows are symmetric; rows from n on
/// are 0. So they are classes.
fn are_classes(rows: &Rows, n: usize) -> bool {
    let is_class = |p: usize| {
        let within = rows[p] & !(u64::MAX >> (64 - n)) == 0;
        within && rows[p] >> p & 1 == 1 && (0..n).all(|q| rows[p] >> q & 1 == 0 || rows[q] == rows[p])
    };
    (0..n).all(is_class) && rows[n..].iter().all(|&row| row == 0)
}

fn laws(c: &mut Checker, chart: &Chart) {
    let (bytes, n) = (chart.bytes(), chart.states());
    let (marks, simulation) = (c.marks(&bytes, n * n), c.simulation(&bytes, n * n));
    let [told, pairs] = c.equal(&bytes);
    let (rows, count) = (&told.rows, pairs.numbers[0]);
    let what = || format!("{chart:?}\n  marks {:?}\n  rows {rows:x?}, pairs {count}", marks.buffer);
    let bit = |i: usize| rows[i / n] >> (i % n) & 1 == 1;
    c.expect(are_classes(rows, n), || format!("no classes: {}", what()));
    c.expect((0..n * n).all(|i| bit(i) == (marks.buffer[i] == 0)), || format!("not where the marks are 0: {}", what()));
    let zeros = marks.buffer.iter().filter(|&&mark| mark == 0).count() as u64;
    c.expect(count == zeros && count >= n as u64, || format!("{zeros} marks are 0: {}", what()));
    let alone = rows[..n].iter().all(|row| row.count_ones() == 1);
    c.expect((count == n as u64) == alone, || format!("as many pairs as states: {}", what()));
    c.expect((0..n * n).all(|i| !bit(i) || simulation.buffer[i] == 1), || format!("no simulation: {}", what()));
    // each round makes a class more
    let classes = (0..n).filter(|&p| rows[p].trailing_zeros() as usize == p).count() as u64;
    c.expect(marks.numbers[1] < classes, || format!("{} rounds: {}", marks.numbers[1], what()));
}

fn drawn(c: &mut Checker, times: usize, states: usize) {
    for _ in 0..times {
        let chart = charts::any(&mut c.random, states);
        laws(c, &chart);
        let n = c.random.within(2, states);
        let (m, t) = (c.random.within(1, 3), c.random.within(0, 4 * n));
        let chart = charts::blocks(&mut c.random, n, m, t);
        laws(c, &chart);
    }
}

pub fn jobs() -> Vec<Job> {
    let mut jobs = shared([
        ("equal: classes", 1..=64, classes),
        ("equal: one pair", 0..=62, only_pair),
        ("equal: all or none", 1..=64, all_or_none),
        ("equal: one large class", 1..=64, one_large),
        ("equal: one word decides", 0..=63, deciding),
    ]);
    for _ in 0..8 {
        jobs.push(Job { name: "equal: laws, large", run: Box::new(|c| drawn(c, 20, 64)) });
        jobs.push(Job { name: "equal: laws, middling", run: Box::new(|c| drawn(c, 200, 20)) });
        jobs.push(Job { name: "equal: laws, small", run: Box::new(|c| drawn(c, 1_000, 7)) });
    }
    jobs
}
