//! A solution by a table of the steps as words and a memory of each diamond, as the archive works. It is no reference: that one looks
//! at every triple for every diamond and box. Here a slip can be let in, for the test of the tests (src/faults/steps.rs), and it is
//! told which operands change, for what must be reached (src/reach/steps.rs).

use crate::counts::Counts;
use crate::reference::sheet::Solution;

/// What a table or a memory can get wrong.
#[derive(Clone, Copy, PartialEq, Eq)]
pub enum Slip {
    /// The last triple is not in the table.
    LastTriple,
    /// The last triple of each state is not.
    LastOfEach,
    /// The last triple of this state is not.
    LastOf(usize),
    /// The walk of a state takes the triple at which it stops with it: the first of each later state is not in the table.
    FirstOfNext,
    /// A state without steps ends the walk for good.
    AfterRest,
    /// Byte 255 stands for the first action alone, or for the last, or for all but these.
    EveryIsFirst,
    EveryIsLast,
    EveryLacksFirst,
    EveryLacksLast,
    /// Source and target change places.
    Swapped,
    /// An action has the row of the one before, or of the one after, or that of all.
    RowBefore,
    RowAfter,
    RowOfAll,
    /// Rows are taken to be m words long.
    RowsOfM,
    /// Sources from here on, or targets, are not in the table.
    SourcesFrom(usize),
    TargetsFrom(usize),
    /// Sources 32 apart share a bit.
    SourceIn32,
    /// The last action's own row is empty.
    LastAction,
    /// What was remembered is taken though the operand is smaller now: of a diamond (5) or a box (6).
    TakenOf(u8),
    /// All places share one memory, or those 256 apart do.
    OneForAll,
    PlaceAsByte,
    /// A box remembers its own operand, or its own word, where the diamond's of the others belong.
    OperandOfBox,
    WordOfBox,
    /// The memory has what the same sheet left on a chart where every state steps to every state.
    Kept,
    /// What was remembered is lost in this application, or from it on, and only new members are walked.
    LostIn(usize),
    LostFrom(usize),
    /// New members are not walked in this application, or from it on.
    NewIn(usize),
    NewFrom(usize),
    /// State 63 as a new member is not walked.
    New63,
    /// Only the operand is remembered anew, or only the result.
    OperandAlone,
    ResultAlone,
    /// A result lies where the operand of the diamond two bytes on does.
    TooClose,
    /// The memory begins in the table's last row.
    InLastRow,
    /// The greatest solution is sought from all states but 63.
    Without63,
    /// The memory has the results of the other solution, which was sought before, or their operands.
    ResultsLeft,
    OperandsLeft,
}

use Slip::*;

/// An operand that is not what it was in the application before.
pub struct Change {
    /// The place in the sheet, and the node there: 5 or 6.
    pub at: usize,
    pub node: u8,
    /// The number of the application, from 0.
    pub application: usize,
    pub grows: bool,
}

struct Solving<'a> {
    n: usize,
    m: usize,
    sheet: &'a [u8],
    slip: Option<Slip>,
    /// The table and after it the memory.
    words: Vec<u64>,
    application: usize,
    /// For each place the operand of the application before, and what changed.
    operands: Vec<u64>,
    changes: Vec<Change>,
}

/// No solution takes so many applications; a slip's may.
const MOST: usize = 100;

/// The triples of a good chart.
pub fn triples(chart: &[u8]) -> &[[u8; 3]] {
    chart[Counts::of(chart).first_triple()..].as_chunks().0
}

/// The triples that come into the table.
fn walked(triples: &[[u8; 3]], slip: Option<Slip>) -> impl Iterator<Item = [usize; 3]> + '_ {
    let source = |i: usize| triples.get(i).map(|triple| triple[0] as usize);
    let mut rested = false;
    let mut is_walked = move |i: usize| {
        let before = if i == 0 { None } else { source(i - 1) };
        let last = source(i + 1) != source(i);
        rested |= source(i) > Some(before.map_or(0, |s| s + 1));
        match slip {
            Some(LastTriple) => i + 1 < triples.len(),
            Some(LastOfEach) => !last,
            Some(LastOf(s)) => !last || source(i) != Some(s),
            Some(FirstOfNext) => i == 0 || before == source(i),
            Some(AfterRest) => !rested,
            _ => true,
        }
    };
    triples.iter().enumerate().filter(move |(i, _)| is_walked(*i)).map(|(_, triple)| triple.map(usize::from))
}

impl<'a> Solving<'a> {
    fn new(chart: &[u8], sheet: &'a [u8], slip: Option<Slip>) -> Solving<'a> {
        let Counts { states: n, actions: m, .. } = Counts::of(chart);
        let words = vec![0; (m + 1) * n + 2 * sheet.len() + 64];
        let (operands, changes) = (vec![0; sheet.len()], Vec::new());
        let mut out = Solving { n, m, sheet, slip, words, application: 0, operands, changes };
        walked(triples(chart), slip).for_each(|[source, action, target]| out.add(source, action, target));
        out
    }

    fn add(&mut self, source: usize, action: usize, target: usize) {
        let (n, last) = (self.n, self.m - 1);
        let (s, u) = if self.slip == Some(Swapped) { (target, source) } else { (source, target) };
        let bit = match self.slip {
            Some(SourcesFrom(least)) if s >= least => 0,
            Some(TargetsFrom(least)) if u >= least => 0,
            Some(SourceIn32) => 1 << (s % 32),
            _ => 1 << s,
        };
        let of_all = match self.slip {
            Some(EveryIsFirst) => action == 0,
            Some(EveryIsLast) => action == last,
            Some(EveryLacksFirst) => action != 0,
            Some(EveryLacksLast) => action != last,
            _ => true,
        };
        if of_all {
            self.words[u] |= bit;
        }
        if self.slip != Some(LastAction) || action != last {
            self.words[(action + 1) * n + u] |= bit;
        }
    }

    fn all(&self) -> u64 {
        u64::MAX >> (64 - self.n)
    }

    /// The row of an action byte.
    fn row(&self, action: usize) -> usize {
        let row = if action < self.m { action + 1 } else { 0 };
        match self.slip {
            Some(RowBefore) => row.saturating_sub(1),
            Some(RowAfter) if row > 0 => (row + 1) % (self.m + 1),
            Some(RowOfAll) => 0,
            _ => row,
        }
    }

    /// Where the operand and the result of the diamond at a place are remembered.
    fn remembered(&self, at: usize) -> (usize, usize) {
        let first = (self.m + 1) * self.n;
        match self.slip {
            Some(OneForAll) => (first, first + 1),
            Some(PlaceAsByte) => (first + 2 * (at % 256), first + 2 * (at % 256) + 1),
            Some(TooClose) => (first + at, first + at + 2),
            Some(InLastRow) => (first - self.n + 2 * at, first - self.n + 2 * at + 1),
            _ => (first + 2 * at, first + 2 * at + 1),
        }
    }

    /// The members of `left`, and what is walked for them.
    fn gathered(&self, row: usize, left: u64) -> u64 {
        let base = row * if self.slip == Some(RowsOfM) { self.m } else { self.n };
        (0..self.n).filter(|u| left >> u & 1 == 1).fold(0, |so_far, u| so_far | self.words[base + u])
    }

    /// The diamond that is, or makes, the node at a place.
    fn diamond(&mut self, at: usize, f: u64) -> u64 {
        let (node, row) = (self.sheet[at], self.row(self.sheet[at + 1] as usize));
        let (operand, result) = self.remembered(at);
        let (was, mut known) = (self.words[operand], self.words[result]);
        // within a call the sets only grow or only shrink, and a formula follows them: each operand lies inside the one before or around it
        let mut left = f & !was;
        if was & !f != 0 && self.slip != Some(TakenOf(node)) {
            (left, known) = (f, 0);
        }
        let k = self.application;
        match self.slip {
            Some(LostIn(at)) if k == at => known = 0,
            Some(LostFrom(first)) if k >= first => known = 0,
            Some(NewIn(at)) if k == at => left = 0,
            Some(NewFrom(first)) if k >= first => left = 0,
            Some(New63) if k > 0 => left &= !(1 << 63),
            _ => {}
        }
        let w = known | self.gathered(row, left);
        if self.slip != Some(ResultAlone) {
            self.words[operand] = if self.slip == Some(OperandOfBox) && node == 6 { self.all() & !f } else { f };
        }
        if self.slip != Some(OperandAlone) {
            self.words[result] = if self.slip == Some(WordOfBox) && node == 6 { self.all() & !w } else { w };
        }
        w
    }

    /// The word of the formula at a place, and the place after it.
    fn formula(&mut self, at: usize, set: u64) -> (u64, usize) {
        match self.sheet[at] {
            0 => (set, at + 1),
            1 => (self.all(), at + 1),
            2 => (0, at + 1),
            node @ (3 | 4) => {
                let (f, between) = self.formula(at + 1, set);
                let (g, after) = self.formula(between, set);
                (if node == 3 { f & g } else { f | g }, after)
            }
            node => {
                let (f, after) = self.formula(at + 2, set);
                let before = std::mem::replace(&mut self.operands[at], f);
                if self.application > 0 && f != before {
                    self.changes.push(Change { at, node, application: self.application, grows: f & !before != 0 });
                }
                let all = self.all();
                (if node == 5 { self.diamond(at, f) } else { all & !self.diamond(at, all & !f) }, after)
            }
        }
    }

    /// The word, the number of states in it and the rounds.
    fn solve(&mut self, solution: Solution) -> [u64; 3] {
        let mut set = match (solution, self.slip) {
            (Solution::Least, _) => 0,
            (Solution::Greatest, Some(Without63)) => self.all() & !(1 << 63),
            (Solution::Greatest, _) => self.all(),
        };
        for k in 0..MOST {
            self.application = k;
            let (next, _) = self.formula(3, set);
            if next == set {
                return [set, set.count_ones() as u64, k as u64];
            }
            set = next;
        }
        [set, set.count_ones() as u64, MOST as u64]
    }
}

/// The solution that a good sheet's kind asks for.
pub fn own(sheet: &[u8]) -> Solution {
    if sheet[1] == 2 {
        Solution::Greatest
    } else {
        Solution::Least
    }
}

/// A solution of a good sheet on a good chart, with a slip.
pub fn solved(chart: &[u8], sheet: &[u8], solution: Solution, slip: Option<Slip>) -> [u64; 3] {
    let mut solving = Solving::new(chart, sheet, slip);
    let table = (solving.m + 1) * solving.n;
    match slip {
        Some(Kept) => {
            let all = solving.all();
            let own: Vec<u64> = solving.words[..table].iter_mut().map(|word| std::mem::replace(word, all)).collect();
            solving.solve(solution);
            solving.words[..table].copy_from_slice(&own);
        }
        Some(ResultsLeft | OperandsLeft) => {
            let other = if solution == Solution::Least { Solution::Greatest } else { Solution::Least };
            solving.solve(other);
            let lost = (slip == Some(OperandsLeft)) as usize;
            solving.words[table + lost..].iter_mut().step_by(2).for_each(|word| *word = 0);
        }
        _ => {}
    }
    solving.solve(solution)
}

/// The operands that change while a solution of a good sheet is sought.
pub fn changes(chart: &[u8], sheet: &[u8], solution: Solution) -> Vec<Change> {
    let mut solving = Solving::new(chart, sheet, None);
    solving.solve(solution);
    solving.changes
}
