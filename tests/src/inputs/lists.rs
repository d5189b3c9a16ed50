//! Lists of reasons: ours, and such as students hand in.

use super::random::Random;
use crate::reference::chart::{Chart, Step};
use crate::reference::reasons::{reasons, Line};

/// The bytes of the longest list: each of 64 states with each other.
pub const LONGEST: usize = 64 * 63 * 5;

/// Our own list, by the reference.
pub fn own(chart: &Chart) -> Vec<[u8; 5]> {
    let mut buffer = vec![0; LONGEST];
    let written = reasons(&chart.bytes(), &mut buffer).unwrap() as usize;
    buffer[..written].as_chunks().0.to_vec()
}

/// A good list, drawn. It ends anywhere, or when no pair can be added.
pub fn students(r: &mut Random, chart: &Chart) -> Vec<[u8; 5]> {
    let all = chart.states().pow(2);
    let most = if r.once_in(3) { r.within(0, all) } else { all };
    up_to(r, chart, most)
}

/// A good list, drawn, of at most so many lines: pairs in any order, each as soon as it is come to and some move of it relies only
/// on pairs that stand before; any of these moves. It is shorter only where no pair can be added.
pub fn up_to(r: &mut Random, chart: &Chart, most: usize) -> Vec<[u8; 5]> {
    let n = chart.states();
    let steps = chart.steps_by_source();
    let mut listed = vec![false; n * n];
    let mut order: Vec<usize> = (0..n * n).collect();
    let mut out = Vec::new();
    loop {
        let before = out.len();
        r.shuffle(&mut order);
        for &pair in &order {
            let moves = if listed[pair] || out.len() == most { vec![] } else { moves(&steps, (pair / n, pair % n)) };
            let relies_on_listed =
                |line: &Line| line.relies_on(&steps).iter().all(|&(x, y)| listed[x as usize * n + y as usize]);
            let fitting: Vec<Line> = moves.into_iter().filter(relies_on_listed).collect();
            if !fitting.is_empty() {
                out.push(fitting[r.below(fitting.len())].bytes());
                listed[pair] = true;
            }
        }
        if out.len() == before {
            return out;
        }
    }
}

/// Every move of either side.
pub fn moves(steps: &[Vec<Step>], (p, q): (usize, usize)) -> Vec<Line> {
    let line = |side, action, target| Line { p: p as u8, q: q as u8, side, action, target };
    let of_p = steps[p].iter().map(|s| line(0, s.action, s.target));
    of_p.chain(steps[q].iter().map(|s| line(1, s.action, s.target))).collect()
}

/// Any line that is a step of the chart, whatever it relies on; where the chart has no step, none is.
pub fn any_move(r: &mut Random, chart: &Chart) -> [u8; 5] {
    let other = r.below(chart.states()) as u8;
    if chart.steps.is_empty() {
        return [other, other, 0, 0, 0];
    }
    let step = chart.steps[r.below(chart.steps.len())];
    if r.once_in(2) {
        [step.source, other, 0, step.action, step.target]
    } else {
        [other, step.source, 1, step.action, step.target]
    }
}

/// A small change of a list: a byte, a line left out, lines that change places, one said twice, another move, bytes added or cut.
pub fn damaged(r: &mut Random, chart: &Chart, lines: &[[u8; 5]]) -> Vec<u8> {
    let mut lines = lines.to_vec();
    if lines.is_empty() {
        lines.push(any_move(r, chart));
    }
    let (i, j) = (r.below(lines.len()), r.below(lines.len()));
    let what = r.below(10);
    match what {
        0 => lines[i][r.below(5)] = r.byte(),
        1 => {
            let at = r.below(5);
            lines[i][at] = if r.once_in(2) { lines[i][at].wrapping_add(1) } else { lines[i][at].wrapping_sub(1) };
        }
        2 => {
            lines.remove(i);
        }
        3 => lines.swap(i, j),
        4 => lines.insert(i, lines[j]),
        5 => lines.insert(i, any_move(r, chart)),
        6 => lines[i] = any_move(r, chart),
        7 => lines[i][2] ^= 1,
        _ => {}
    }
    let mut bytes = lines.concat();
    match what {
        8 => bytes.truncate(r.below(bytes.len())),
        9 => (0..r.within(1, 9)).for_each(|_| bytes.push(r.byte())),
        _ => {}
    }
    bytes
}
