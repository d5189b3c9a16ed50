//! Marks and simulation by words, one a row, as the archive works. It is no reference: the faults let it slip.

use crate::archive::Rows;
use crate::reference::chart::Chart;
use std::ops::Range;

/// What can go wrong in the tables and in the rounds.
#[derive(Clone, Copy, PartialEq, Eq)]
pub enum Slip {
    /// The tables lack steps to this state.
    Target(usize),
    /// The tables lack steps from this state on.
    SourcesFrom(usize),
    /// The last action is not looked at.
    LastAction,
    /// A round looks at the rows that it makes, and not at those that it was given.
    InPlace,
    /// The end after so many rounds.
    After(u64),
    /// Of marks: the end where a round leaves one row as it was.
    RowUnchanged,
    /// The class whose lowest state this is never counts as made.
    NotMade(usize),
    /// Of the classes that a round made only the first is looked at.
    OnlyFirstMade,
    /// States that are able to a step lose those that are not, and these keep them.
    OneSide,
    /// This state's marks are not written from a round on.
    NoMarks(usize, u64),
    /// Of simulation: the words of rows and of columns exchanged where states are struck.
    Transposed,
    /// What fell first from a row stands for all that falls from it later.
    FirstFell,
    /// Of what fell from a row only the lowest state is looked at.
    LowestFell,
    /// This row stays as it is from a round on.
    KeptFrom(usize, u64),
    /// What falls from this row is not followed.
    NotChanged(usize),
}

/// What came of the rounds: a byte for each pair, and the relation at the end.
pub struct Settled {
    pub cells: Vec<u8>,
    pub rounds: u64,
    pub rows: Rows,
}

fn members(set: u64) -> impl Iterator<Item = usize> {
    (0..64).filter(move |s| set >> s & 1 == 1)
}

/// Every row of a member of the set keeps only these.
fn strike(rows: &mut Rows, set: u64, kept: u64) {
    members(set).for_each(|p| rows[p] &= kept);
}

/// The steps of a chart as words: for an action and a state those that step to it, and those that it steps to.
struct Tables {
    n: usize,
    m: usize,
    into: Vec<u64>,
    out: Vec<u64>,
    slip: Option<Slip>,
}

impl Tables {
    fn new(chart: &Chart, slip: Option<Slip>) -> Tables {
        let (n, m) = (chart.states(), chart.actions());
        let mut tables = Tables { n, m, into: vec![0; n * m], out: vec![0; n * m], slip };
        for step in &chart.steps {
            let (s, a, u) = (step.source as usize, step.action as usize, step.target as usize);
            match slip {
                Some(Slip::Target(lost)) if u == lost => continue,
                Some(Slip::SourcesFrom(lost)) if s >= lost => continue,
                _ => {}
            }
            tables.into[a * n + u] |= 1 << s;
            tables.out[a * n + s] |= 1 << u;
        }
        tables
    }

    fn slips(&self, slip: Slip) -> bool {
        self.slip == Some(slip)
    }

    fn actions(&self) -> Range<usize> {
        0..self.m.saturating_sub(self.slips(Slip::LastAction) as usize)
    }

    fn all(&self) -> u64 {
        u64::MAX >> (64 - self.n)
    }

    /// All pairs.
    fn whole(&self) -> Rows {
        std::array::from_fn(|p| if p < self.n { self.all() } else { 0 })
    }

    /// The states with a step into the set.
    fn reaching(&self, a: usize, set: u64) -> u64 {
        members(set).fold(0, |so_far, u| so_far | self.into[a * self.n + u])
    }

    fn ends(&self, rounds: u64) -> bool {
        self.slips(Slip::After(rounds))
    }

    /// A round of marks, by the classes that the last one made.
    fn split(&self, near: Rows, made: u64) -> Rows {
        let mut next = near;
        let looked_at = if self.slips(Slip::OnlyFirstMade) { 1 } else { 64 };
        for x in members(made).take(looked_at) {
            for a in self.actions() {
                let class = if self.slips(Slip::InPlace) { next[x] } else { near[x] };
                let able = self.reaching(a, class);
                strike(&mut next, able, able);
                if !self.slips(Slip::OneSide) {
                    strike(&mut next, self.all() & !able, !able);
                }
            }
        }
        next
    }

    /// Whether the class of this lowest state counts as made, and whether the state's marks are written.
    fn is_made(&self, p: usize) -> bool {
        !self.slips(Slip::NotMade(p))
    }

    fn is_marked(&self, p: usize, round: u64) -> bool {
        !matches!(self.slip, Some(Slip::NoMarks(state, from)) if state == p && round >= from)
    }

    /// A round of simulation, by what fell from these rows in the last one.
    fn fall(&self, near: Rows, fell: &Rows, changed: u64) -> Rows {
        let mut next = near;
        for x in members(changed) {
            for a in self.actions() {
                let row = if self.slips(Slip::InPlace) { next[x] } else { near[x] };
                let fallen = if self.slips(Slip::LowestFell) { fell[x] & fell[x].wrapping_neg() } else { fell[x] };
                let lost = members(self.reaching(a, fallen)).filter(|q| self.out[a * self.n + q] & row == 0);
                let lost = lost.fold(0, |so_far, q| so_far | 1u64 << q);
                let sources = self.into[a * self.n + x];
                match self.slip {
                    Some(Slip::Transposed) => strike(&mut next, lost, !sources),
                    _ => strike(&mut next, sources, !lost),
                }
            }
        }
        next
    }
}

/// Marks, and which states are equal.
pub fn marks(chart: &Chart, slip: Option<Slip>) -> Settled {
    let tables = Tables::new(chart, slip);
    let n = tables.n;
    let mut told = Settled { cells: vec![0; n * n], rounds: 0, rows: tables.whole() };
    let mut made = 1;
    while made != 0 && !tables.ends(told.rounds) {
        let next = tables.split(told.rows, made);
        made = 0;
        for p in 0..n {
            let fell = told.rows[p] & !next[p];
            for q in members(fell).filter(|_| tables.is_marked(p, told.rounds + 1)) {
                told.cells[p * n + q] = told.rounds as u8 + 1;
            }
            if fell != 0 && next[p].trailing_zeros() as usize == p && tables.is_made(p) {
                made |= 1 << p;
            }
        }
        told.rounds += (made != 0) as u64;
        let one_stayed = (0..n).any(|p| next[p] == told.rows[p]);
        told.rows = next;
        if one_stayed && tables.slips(Slip::RowUnchanged) {
            break;
        }
    }
    told
}

/// The largest simulation.
pub fn simulation(chart: &Chart, slip: Option<Slip>) -> Settled {
    let tables = Tables::new(chart, slip);
    let (n, whole) = (tables.n, tables.whole());
    let mut near = whole;
    for a in tables.actions() {
        let able = tables.reaching(a, tables.all());
        strike(&mut near, able, able);
    }
    let mut fell: Rows = std::array::from_fn(|p| whole[p] & !near[p]);
    let mut changed = (0..n).filter(|&p| fell[p] != 0).fold(0, |so_far, p| so_far | 1u64 << p);
    let mut rounds = 0;
    while changed != 0 && !tables.ends(rounds) {
        rounds += 1;
        let mut next = tables.fall(near, &fell, changed);
        changed = 0;
        for p in 0..n {
            // the first round is done before
            if matches!(slip, Some(Slip::KeptFrom(row, from)) if row == p && rounds + 1 >= from) {
                next[p] = near[p];
            }
            let gone = near[p] & !next[p];
            if gone == 0 || tables.slips(Slip::NotChanged(p)) {
                continue;
            }
            changed |= 1 << p;
            if fell[p] == 0 || !tables.slips(Slip::FirstFell) {
                fell[p] = gone;
            }
        }
        near = next;
    }
    let cells = (0..n * n).map(|i| (near[i / n] >> (i % n) & 1) as u8).collect();
    Settled { cells, rounds, rows: near }
}
