//! Rust of the archive's own shape: the steps as a table of words, in an array no longer than is needed; the relation as 64 words, one a
//! row, handed to each round by value and back; formulas evaluated over the sheet's bytes, with such a table made once for each solution,
//! and at each diamond's place in the sheet what it last gave.

use crate::read::{self, Shape};

/// The triples, sorted.
pub fn triples(chart: &[u8], shape: Shape) -> &[[u8; 3]] {
    chart[shape.at..].as_chunks().0
}

/// The steps of each state: a range of the triples.
pub fn sources(triples: &[[u8; 3]], n: usize) -> [&[[u8; 3]]; 64] {
    let mut of: [&[[u8; 3]]; 64] = [&[]; 64];
    let mut rest = triples;
    for (s, steps) in of[..n].iter_mut().enumerate() {
        let count = rest.iter().position(|t| t[0] as usize > s).unwrap_or(rest.len());
        (*steps, rest) = rest.split_at(count);
    }
    of
}

/// The table of the steps, n words a row: row 0 for all actions together, row a + 1 for action a. Bit s of a row's word u is set where
/// s has such a step to u. The words are 0 before.
fn fill(triples: &[[u8; 3]], n: usize, table: &mut [u64]) {
    let mut rest = triples.iter().peekable();
    for s in 0..n {
        while let Some(&[_, action, target]) = rest.next_if(|triple| triple[0] as usize == s) {
            let (bit, u) = (1 << s, target as usize);
            table[u] |= bit;
            table[(action as usize + 1) * n + u] |= bit;
        }
    }
}

/// The same with source and target exchanged: bit u of a row's word s is set where s has such a step to u.
fn fill_out(triples: &[[u8; 3]], n: usize, table: &mut [u64]) {
    let mut rest = triples.iter().peekable();
    for s in 0..n {
        while let Some(&[_, action, target]) = rest.next_if(|triple| triple[0] as usize == s) {
            let bit = 1 << target;
            table[s] |= bit;
            table[(action as usize + 1) * n + s] |= bit;
        }
    }
}

/// The or of the words of a set's members, of the row that starts there.
fn reach(table: &[u64], base: usize, set: u64) -> u64 {
    let (mut left, mut out) = (set, 0);
    while left != 0 {
        out |= table[base + left.trailing_zeros() as usize];
        left &= left - 1;
    }
    out
}

/// A relation: bit q of word p for the pair (p, q). Words from n on are 0.
pub type Rows = [u64; 64];

/// Every row of a member of the set keeps only these.
fn strike(rows: &mut Rows, set: u64, kept: u64) {
    let mut left = set;
    while left != 0 {
        rows[left.trailing_zeros() as usize] &= kept;
        left &= left - 1;
    }
}

/// All pairs of n states.
fn whole(n: usize) -> Rows {
    let mut rows = [0; 64];
    rows[..n].fill(read::all(n));
    rows
}

/// A round of marks: states stay together that have the same steps into every class of `made`, which are those that the last round made,
/// each by its lowest state. Only rows of `open` can change, the states that are not alone in their class.
fn split(near: Rows, made: u64, open: u64, into: &[u64], n: usize, m: usize) -> Rows {
    let mut next = near;
    let mut left = made;
    while left != 0 {
        let class = near[left.trailing_zeros() as usize];
        left &= left - 1;
        for a in 0..m {
            let able = reach(into, (a + 1) * n, class);
            if able & open != 0 && able & open != open {
                strike(&mut next, open & able, able);
                strike(&mut next, open & !able, !able);
            }
        }
    }
    next
}

/// Writes the mark where something fell from a row; the classes that the round made, by their lowest states. States that are alone now
/// are open no more.
fn note_marks(near: &Rows, next: &Rows, n: usize, mark: u8, cells: &mut [u8], open: &mut u64) -> u64 {
    let (mut rows, mut made) = (*open, 0);
    while rows != 0 {
        let p = rows.trailing_zeros() as usize;
        rows &= rows - 1;
        let fell = near[p] & !next[p];
        if fell == 0 {
            continue;
        }
        let mut left = fell;
        while left != 0 {
            cells[p * n + left.trailing_zeros() as usize] = mark;
            left &= left - 1;
        }
        if next[p].trailing_zeros() as usize == p {
            made |= 1 << p;
        }
        if next[p] == 1 << p {
            *open &= !next[p];
        }
    }
    made
}

/// The rows of equal states and the rounds. The table lies in these words, which are 0, as the cells are.
#[inline(always)]
fn settle_marks(triples: &[[u8; 3]], n: usize, m: usize, into: &mut [u64], cells: &mut [u8]) -> (Rows, u64) {
    fill(triples, n, into);
    let (mut near, mut made, mut k) = (whole(n), 1, 0);
    let mut open = if n == 1 { 0 } else { read::all(n) };
    while made != 0 && open != 0 {
        let next = split(near, made, open, into, n, m);
        made = note_marks(&near, &next, n, (k + 1) as u8, cells, &mut open);
        near = next;
        if made != 0 {
            k += 1;
        }
    }
    (near, k)
}

/// The same, in a table no longer than is needed: each word of it costs time to be made 0.
#[inline(always)]
pub fn marks_of(triples: &[[u8; 3]], n: usize, m: usize, cells: &mut [u8]) -> (Rows, u64) {
    match (m + 1) * n {
        ..=128 => settle_marks(triples, n, m, &mut [0; 128], cells),
        ..=576 => settle_marks(triples, n, m, &mut [0; 576], cells),
        _ => settle_marks(triples, n, m, &mut [0; 2112], cells),
    }
}

/// The rounds.
#[inline(never)]
pub fn marks(chart: &[u8], buffer: &mut [u8]) -> Option<u64> {
    let shape = read::chart(chart)?;
    let cells = buffer.get_mut(..shape.n * shape.n)?;
    cells.fill(0);
    Some(marks_of(triples(chart, shape), shape.n, shape.m, cells).1)
}

/// The rows of equal states, and how many states there are: the rounds of marks, whose bytes are not kept.
#[inline(never)]
pub fn equal_rows(chart: &[u8]) -> Option<(Rows, u64)> {
    let shape = read::chart(chart)?;
    let (rows, _) = marks_of(triples(chart, shape), shape.n, shape.m, &mut [0; 4096]);
    Some((rows, shape.n as u64))
}

/// How many pairs are equal.
#[inline(never)]
pub fn equal_pairs(chart: &[u8]) -> Option<u64> {
    let shape = read::chart(chart)?;
    let (rows, _) = marks_of(triples(chart, shape), shape.n, shape.m, &mut [0; 4096]);
    Some(rows.iter().map(|row| row.count_ones() as u64).sum())
}

/// The steps of a simulation, from the target and from the source.
struct Tables<'a> {
    n: usize,
    m: usize,
    into: &'a [u64],
    out: &'a [u64],
}

impl Tables<'_> {
    /// Of the candidates, those without a step of this row of the table into the set.
    fn without(&self, base: usize, candidates: u64, set: u64) -> u64 {
        let (mut left, mut gone) = (candidates, 0);
        while left != 0 {
            let q = left.trailing_zeros();
            left &= left - 1;
            if self.out[base + q as usize] & set == 0 {
                gone |= 1 << q;
            }
        }
        gone
    }

    /// The states without a step into what is left of a row, among them all that stepped into what fell: by what is left where that is
    /// fewer, and else by what fell.
    fn lost(&self, base: usize, row: u64, fell: u64, by_row: bool) -> u64 {
        if by_row {
            return !reach(self.into, base, row);
        }
        self.without(base, reach(self.into, base, fell), row)
    }

    /// A round of simulation: what fell from the rows of `changed` in the last round takes more with it, from the rows of the states that
    /// step there. Both become those of this round.
    fn round(&self, near: Rows, fell: &mut Rows, changed: &mut u64) -> Rows {
        let mut next = near;
        let mut left = *changed;
        while left != 0 {
            let x = left.trailing_zeros() as usize;
            left &= left - 1;
            let by_row = fell[x] & (fell[x] - 1) != 0 && near[x].count_ones() <= fell[x].count_ones();
            for a in 0..self.m {
                let base = (a + 1) * self.n;
                let sources = self.into[base + x];
                if sources != 0 {
                    strike(&mut next, sources, !self.lost(base, near[x], fell[x], by_row));
                }
            }
        }
        *changed = note_fallen(&near, &next, reach(self.into, 0, *changed), fell);
        next
    }
}

/// Of the states among these, those from whose rows something fell; what it was is noted.
fn note_fallen(near: &Rows, next: &Rows, among: u64, fell: &mut Rows) -> u64 {
    let (mut left, mut changed) = (among, 0);
    while left != 0 {
        let p = left.trailing_zeros() as usize;
        left &= left - 1;
        let gone = near[p] & !next[p];
        if gone != 0 {
            fell[p] = gone;
            changed |= 1 << p;
        }
    }
    changed
}

/// The rounds. The tables lie in these words, which are 0; the second is made where there is more than one round.
#[inline(always)]
fn settle_simulation(triples: &[[u8; 3]], shape: Shape, into: &mut [u64], out: &mut [u64], cells: &mut [u8]) -> u64 {
    let Shape { n, m, .. } = shape;
    fill(triples, n, into);
    let all = read::all(n);
    let mut near = whole(n);
    for a in 0..m {
        let able = reach(into, (a + 1) * n, all);
        strike(&mut near, able, able);
    }
    let mut fell = [0; 64];
    let mut changed = note_fallen(&whole(n), &near, all, &mut fell);
    if changed != 0 {
        fill_out(triples, n, out);
    }
    let tables = Tables { n, m, into, out };
    let mut k = 0;
    while changed != 0 {
        k += 1;
        near = tables.round(near, &mut fell, &mut changed);
    }
    for (row, cells) in near.iter().zip(cells.chunks_exact_mut(n)) {
        for (q, cell) in cells.iter_mut().enumerate() {
            *cell = (row >> q & 1) as u8;
        }
    }
    k
}

/// The rounds.
#[inline(never)]
pub fn simulation(chart: &[u8], buffer: &mut [u8]) -> Option<u64> {
    let shape = read::chart(chart)?;
    let cells = buffer.get_mut(..shape.n * shape.n)?;
    let triples = triples(chart, shape);
    Some(match (shape.m + 1) * shape.n {
        ..=128 => settle_simulation(triples, shape, &mut [0; 128], &mut [0; 128], cells),
        ..=576 => settle_simulation(triples, shape, &mut [0; 576], &mut [0; 576], cells),
        _ => settle_simulation(triples, shape, &mut [0; 2112], &mut [0; 2112], cells),
    })
}

/// What a formula is evaluated with.
struct Evaluation<'a> {
    sheet: &'a [u8],
    n: usize,
    m: usize,
    all: u64,
    table: &'a [u64],
    /// For each place of the sheet the set of its diamond and what that gave, both of the round before.
    memory: &'a mut [u64],
}

impl Evaluation<'_> {
    /// The states with a step into f by the action at the place. Where f has all of the set before, only what is new is walked.
    fn diamond(&mut self, at: usize, f: u64) -> u64 {
        let action = self.sheet[at + 1] as usize;
        let row = if action < self.m { action + 1 } else { 0 };
        let words = &self.table[row * self.n..][..self.n];
        let [was, known] = &mut self.memory.as_chunks_mut().0[at];
        let (mut left, mut w) = if *was & f == *was { (f & !*was, *known) } else { (f, 0) };
        while left != 0 {
            w |= words[left.trailing_zeros() as usize];
            left &= left - 1;
        }
        (*was, *known) = (f, w);
        w
    }

    /// The word of the formula at a place and the place after it. It was read there, so no byte is judged again.
    fn formula(&mut self, at: usize, set: u64) -> (u64, usize) {
        match self.sheet[at] {
            0 => (set, at + 1),
            1 => (self.all, at + 1),
            2 => (0, at + 1),
            node @ (3 | 4) => {
                let (f, between) = self.formula(at + 1, set);
                let (g, after) = self.formula(between, set);
                (if node == 3 { f & g } else { f | g }, after)
            }
            node => {
                let (f, after) = self.formula(at + 2, set);
                (if node == 5 { self.diamond(at, f) } else { self.all & !self.diamond(at, self.all & !f) }, after)
            }
        }
    }
}

/// The word, the number of states in it and the rounds. The table and the memory lie in these words, which are 0.
#[inline(always)]
fn solve(chart: &[u8], shape: Shape, sheet: &[u8], kind: u8, words: &mut [u64]) -> (u64, u64, u64) {
    let Shape { n, m, .. } = shape;
    let (table, memory) = words.split_at_mut((m + 1) * n);
    fill(triples(chart, shape), n, table);
    let mut evaluation = Evaluation { sheet, n, m, all: read::all(n), table, memory };
    let mut set = read::first_set(kind, n);
    let mut rounds = 0;
    loop {
        let (next, _) = evaluation.formula(3, set);
        if next == set {
            return (set, set.count_ones() as u64, rounds);
        }
        set = next;
        rounds += 1;
    }
}

/// The same, in words no more than are needed: each of them costs time to be made 0.
pub fn solve_in_room(chart: &[u8], shape: Shape, sheet: &[u8], kind: u8) -> (u64, u64, u64) {
    match (shape.m + 1) * shape.n + 2 * sheet.len() {
        ..=128 => solve(chart, shape, sheet, kind, &mut [0; 128]),
        ..=1024 => solve(chart, shape, sheet, kind, &mut [0; 1024]),
        _ => solve(chart, shape, sheet, kind, &mut [0; 2916]),
    }
}

#[inline(never)]
pub fn property(chart: &[u8], sheet: &[u8]) -> Option<(u64, u64, u64)> {
    let shape = read::chart(chart)?;
    let kind = read::sheet(sheet, shape.m)?;
    Some(solve_in_room(chart, shape, sheet, kind))
}
