//! Show me why: document 02, T-03. The list of reasons that we write.

use super::chart::{self, Step};
use super::nearness::marks_of;
use super::refusal::{long_enough, Refusal};

/// What one line says: p and q are told apart by a step of p, side 0, or of q, side 1.
#[derive(Clone, Copy, PartialEq, Eq, Debug)]
pub struct Line {
    pub p: u8,
    pub q: u8,
    pub side: u8,
    pub action: u8,
    pub target: u8,
}

impl Line {
    pub fn of([p, q, side, action, target]: [u8; 5]) -> Line {
        Line { p, q, side, action, target }
    }

    pub fn bytes(&self) -> [u8; 5] {
        [self.p, self.q, self.side, self.action, self.target]
    }

    /// The state that steps, and the one that answers.
    pub fn sides(&self) -> (usize, usize) {
        let (p, q) = (self.p as usize, self.q as usize);
        if self.side == 0 {
            (p, q)
        } else {
            (q, p)
        }
    }

    /// The pairs that a line of side 0 or 1 relies on: the target with each answering state of the other, p's side first.
    pub fn relies_on(&self, steps: &[Vec<Step>]) -> Vec<(u8, u8)> {
        let (_, other) = self.sides();
        let answers = steps[other].iter().filter(|step| step.action == self.action).map(|step| step.target);
        answers.map(|answer| if self.side == 0 { (self.target, answer) } else { (answer, self.target) }).collect()
    }
}

/// The length of the list, which fills the start of the buffer.
pub fn reasons(chart: &[u8], buffer: &mut [u8]) -> Result<u64, Refusal> {
    let steps = chart::read(chart)?.steps_by_source();
    let (marks, _) = marks_of(&steps)?;
    let list: Vec<u8> = lines(&steps, &marks).iter().flat_map(Line::bytes).collect();
    long_enough(buffer, list.len())?;
    buffer[..list.len()].copy_from_slice(&list);
    Ok(list.len() as u64)
}

/// One line for each unequal pair in both orders, rising by mark, then p, then q.
fn lines(steps: &[Vec<Step>], marks: &[u8]) -> Vec<Line> {
    let n = steps.len();
    let pairs = (0..n).flat_map(|p| (0..n).map(move |q| (marks[p * n + q], p, q)));
    let mut unequal: Vec<_> = pairs.filter(|&(mark, _, _)| mark != 0).collect();
    unequal.sort();
    unequal.into_iter().map(|(mark, p, q)| line(steps, marks, mark, (p, q))).collect()
}

/// Of the moves whose paired targets all have smaller nonzero marks: side 0 first, then the least action, then the least target.
fn line(steps: &[Vec<Step>], marks: &[u8], mark: u8, (p, q): (usize, usize)) -> Line {
    let sides = [(0, &steps[p]), (1, &steps[q])];
    let mut moves: Vec<Line> = sides
        .into_iter()
        .flat_map(|(side, steps)| steps.iter().map(move |s| (side, s.action, s.target)))
        .map(|(side, action, target)| Line { p: p as u8, q: q as u8, side, action, target })
        .collect();
    moves.sort_by_key(|m| (m.side, m.action, m.target));
    let smaller = |&(x, y): &(u8, u8)| (1..mark).contains(&marks[x as usize * steps.len() + y as usize]);
    let fitting = moves.into_iter().find(|m| m.relies_on(steps).iter().all(smaller));
    fitting.expect("an unequal pair has such a move")
}
