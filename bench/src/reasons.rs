//! Lists of reasons in Rust, written and checked: of the archive's own shape, and as fast as we know.

use crate::read;
use crate::same_shape::{marks_of, sources, triples};
use crate::words::{members, split, Steps};

type Triples<'a> = &'a [[u8; 3]];

/// The bytes of the longest list.
pub const LONGEST: usize = 64 * 63 * 5;

/// Every pair that a move relies on has a mark that is smaller than the pair's own, and not 0. The cell of a pair is x * row +
/// y * column, where x is the target of the move and y an answer.
fn fits([_, action, x]: [u8; 3], others: Triples, cells: &[u8], row: usize, column: usize, own: u8) -> bool {
    let base = x as usize * row;
    others.iter().all(|&[_, b, y]| {
        let mark = cells[base + y as usize * column];
        b != action || mark != 0 && mark < own
    })
}

/// The side, action and target of a pair's line.
fn first_move(of_p: Triples, of_q: Triples, cells: &[u8], n: usize, own: u8) -> [u8; 3] {
    if let Some(&[_, action, target]) = of_p.iter().find(|&&step| fits(step, of_q, cells, n, 1, own)) {
        return [0, action, target];
    }
    match of_q.iter().find(|&&step| fits(step, of_p, cells, 1, n, own)) {
        Some(&[_, action, target]) => [1, action, target],
        None => unreachable!("an unequal pair has such a move"),
    }
}

/// The length written. The marks, by words, as a byte matrix; then the cells of each mark linked in one pass downwards, and gone
/// through in order, the first move that fits searched in the steps of p and then of q.
#[inline(never)]
pub fn same_shape(chart: &[u8], buffer: &mut [u8]) -> Option<u64> {
    let shape = read::chart(chart)?;
    let (n, steps) = (shape.n, triples(chart, shape));
    let of = sources(steps, n);
    let mut cells = [0; 4096];
    let (_, rounds) = marks_of(steps, n, shape.m, &mut cells[..n * n]);
    const NONE: u16 = u16::MAX;
    let (mut head, mut next, mut lines) = ([NONE; 64], [NONE; 4096], 0);
    for cell in (0..n * n).rev() {
        let mark = cells[cell] as usize;
        if mark != 0 {
            next[cell] = head[mark];
            head[mark] = cell as u16;
            lines += 1;
        }
    }
    let (out, _) = buffer.get_mut(..5 * lines)?.as_chunks_mut::<5>();
    let mut at = 0;
    for mark in 1..=rounds as usize {
        let mut cell = head[mark];
        while cell != NONE {
            let (p, q) = (cell as usize / n, cell as usize % n);
            let [side, action, target] = first_move(of[p], of[q], &cells, n, mark as u8);
            out[at] = [p as u8, q as u8, side, action, target];
            at += 1;
            cell = next[cell as usize];
        }
    }
    Some(5 * lines as u64)
}

/// The length written. Where states fall from a state's block in a round, they are given their moves at once: a step of p to t by
/// a fits all that have no a-step into what was t's block before the round, and the others by their own steps.
#[inline(never)]
pub fn words(chart: &[u8], buffer: &mut [u8]) -> Option<u64> {
    let shape = read::chart(chart)?;
    let of = sources(triples(chart, shape), shape.n);
    let steps = Steps::new(chart, shape);
    // it is written where it belongs if there is room for any list, and elsewhere first if not
    let mut aside = [0; LONGEST];
    let direct = buffer.len() >= 5 * shape.n * (shape.n - 1);
    let out = if direct { &mut *buffer } else { &mut aside[..] };
    let (out, _) = out.as_chunks_mut::<5>();
    let mut at = 0;
    let mut moves = [[0; 3]; 64];
    split(&steps, |p, fallen, _, before| {
        choose(&steps, &of, p, fallen, before, &mut moves);
        for q in members(fallen) {
            let [side, action, target] = moves[q];
            out[at] = [p as u8, q as u8, side, action, target];
            at += 1;
        }
    });
    if !direct {
        buffer.get_mut(..5 * at)?.copy_from_slice(&aside[..5 * at]);
    }
    Some(5 * at as u64)
}

/// The move by which p is told from each state that falls from its block.
#[inline(always)]
fn choose(steps: &Steps, of: &[Triples; 64], p: usize, fallen: u64, before: &[u64; 64], moves: &mut [[u8; 3]; 64]) {
    let mut left = fallen;
    for &[_, action, target] in of[p] {
        let fit = without(steps, action, left, before[target as usize]);
        for q in members(fit) {
            moves[q] = [0, action, target];
        }
        left &= !fit;
        if left == 0 {
            return;
        }
    }
    for q in members(left) {
        let fits = |t: &&[u8; 3]| steps.to(t[1] as usize, p) & before[t[2] as usize] == 0;
        let &[_, action, target] = of[q].iter().find(fits).expect("an unequal pair has such a move");
        moves[q] = [1, action, target];
    }
}

/// Those of some states that have no a-step into a block.
fn without(steps: &Steps, action: u8, some: u64, block: u64) -> u64 {
    let a = action as usize;
    if block.count_ones() < some.count_ones() {
        return some & !steps.reaching(a, block);
    }
    members(some).filter(|&q| steps.to(a, q) & block == 0).fold(0, |so_far, q| so_far | 1 << q)
}

/// The list with each pair in its other order and so by the other side, which is as good. Most of ours are of side 0.
pub fn turned_round(list: &[u8]) -> Vec<u8> {
    let lines = list.as_chunks::<5>().0;
    let turned: Vec<_> = lines.iter().map(|&[p, q, side, action, target]| [q, p, 1 - side, action, target]).collect();
    assert!(2 * turned.iter().filter(|line| line[2] == 1).count() > turned.len(), "mostly of side 0");
    turned.concat()
}

/// A line is a step of one of the two states, its pair is new, and the pairs that it relies on are listed.
fn is_good(of: &[Triples; 64], n: usize, listed: &[u64; 64], line: [u8; 5]) -> bool {
    let [p, q, side, action, target] = line;
    if p as usize >= n || q as usize >= n || side > 1 || listed[p as usize] >> q & 1 == 1 {
        return false;
    }
    let (stepping, answering) = if side == 0 { (p, q) } else { (q, p) };
    let has = |x: u8, y: u8| listed[x as usize] >> y & 1 == 1;
    of[stepping as usize].iter().any(|t| t[1] == action && t[2] == target)
        && of[answering as usize]
            .iter()
            .all(|&[_, b, answer]| b != action || if side == 0 { has(target, answer) } else { has(answer, target) })
}

/// The number of lines. The steps of each state as a range of the triples, the pairs so far as 64 words; each line judged by a walk
/// over the steps of its two states.
#[inline(never)]
pub fn check_same_shape(chart: &[u8], list: &[u8]) -> Option<u64> {
    let shape = read::chart(chart)?;
    let of = sources(triples(chart, shape), shape.n);
    let mut listed = [0u64; 64];
    let (lines, rest) = list.as_chunks::<5>();
    for &line in lines {
        if !is_good(&of, shape.n, &listed, line) {
            return None;
        }
        listed[line[0] as usize] |= 1 << line[1];
    }
    rest.is_empty().then_some(lines.len() as u64)
}

/// The number of lines. The steps as words, the pairs so far as words both by p and by q: no line needs a walk.
#[inline(never)]
pub fn check_words(chart: &[u8], list: &[u8]) -> Option<u64> {
    let shape = read::chart(chart)?;
    let (n, m) = (shape.n, shape.m);
    let steps = Steps::new(chart, shape);
    let (mut by_p, mut by_q) = ([0u64; 64], [0u64; 64]);
    let (lines, rest) = list.as_chunks::<5>();
    for &line in lines {
        let [p, q, side, action, target] = line.map(usize::from);
        if p >= n || q >= n || side > 1 || action >= m || target >= n {
            return None;
        }
        let (stepping, answering, listed) = if side == 0 { (p, q, by_p[target]) } else { (q, p, by_q[target]) };
        let is_step = steps.to(action, stepping) >> target & 1 == 1;
        if !is_step || steps.to(action, answering) & !listed != 0 || by_p[p] >> q & 1 == 1 {
            return None;
        }
        by_p[p] |= 1 << q;
        by_q[q] |= 1 << p;
    }
    rest.is_empty().then_some(lines.len() as u64)
}
