//! A second look at every list of reasons that is written or accepted: the formulas that its lines spell, worked out from the
//! bytes of the file and of the list alone. Side 0 is a diamond by the action over the "and" of what the pairs spell that the
//! line relies on, side 1 a box over the "or" of them; where nothing answers, over true and false. Each must hold at p and not at
//! q. So a pair that is listed is unequal; and of our own list, all pairs that it lacks are held to be a bisimulation.

use crate::archive::Question::{CheckReasons, Reasons};
use crate::counts::Counts;
use crate::outcome::Outcome;

/// What a pair's lines spell: the states where the formula holds, bit s for state s, and its depth.
#[derive(Clone, Copy)]
pub struct Formula {
    pub holds: u64,
    pub depth: usize,
}

/// The states that each state reaches by each action, as words.
pub struct Steps {
    pub n: usize,
    /// By action, and then by state.
    pub to: Vec<[u64; 64]>,
}

impl Steps {
    /// Those of a good chart.
    pub fn of(chart: &[u8]) -> Steps {
        let counts = Counts::of(chart);
        let mut to = vec![[0; 64]; counts.actions];
        for &[source, action, target] in chart[counts.first_triple()..].as_chunks().0 {
            to[action as usize][source as usize] |= 1 << target;
        }
        Steps { n: counts.states, to }
    }

    fn all(&self) -> u64 {
        u64::MAX >> (64 - self.n)
    }

    fn states_where(&self, holds: impl Fn(usize) -> bool) -> u64 {
        (0..self.n).fold(0, |word, s| word | (holds(s) as u64) << s)
    }
}

pub fn members(word: u64) -> impl Iterator<Item = usize> {
    (0..64).filter(move |s| word >> s & 1 == 1)
}

/// The formula of each line, in their order; nothing where a line is no move, or relies on a pair that has no line before.
pub fn formulas(chart: &[u8], lines: &[[u8; 5]]) -> Option<Vec<Formula>> {
    let steps = Steps::of(chart);
    let mut of_pair = [[None; 64]; 64];
    let mut out = Vec::with_capacity(lines.len());
    for line in lines {
        let formula = formula(&steps, line.map(usize::from), &of_pair)?;
        of_pair[line[0] as usize][line[1] as usize] = Some(formula);
        out.push(formula);
    }
    Some(out)
}

fn formula(steps: &Steps, line: [usize; 5], of_pair: &[[Option<Formula>; 64]; 64]) -> Option<Formula> {
    let [p, q, side, action, target] = line;
    if p.max(q).max(target) >= steps.n || side > 1 {
        return None;
    }
    let to = steps.to.get(action)?;
    let (stepping, answering) = if side == 0 { (p, q) } else { (q, p) };
    if to[stepping] >> target & 1 == 0 {
        return None;
    }
    let mut under = Formula { holds: if side == 0 { steps.all() } else { 0 }, depth: 0 };
    for answer in members(to[answering]) {
        let relied = if side == 0 { of_pair[target][answer] } else { of_pair[answer][target] }?;
        under.holds = if side == 0 { under.holds & relied.holds } else { under.holds | relied.holds };
        under.depth = under.depth.max(relied.depth);
    }
    let holds = steps.states_where(|s| if side == 0 { to[s] & under.holds != 0 } else { to[s] & !under.holds == 0 });
    Some(Formula { holds, depth: under.depth + 1 })
}

/// The depth of the deepest formula that the list of an answer spells, 0 where it has no line.
pub fn deepest(told: &Outcome) -> usize {
    let formulas = formulas(told.left.chart.part(), told.reasons()).unwrap_or_default();
    formulas.iter().map(|formula| formula.depth).max().unwrap_or(0)
}

/// What is wrong with a list that is written or accepted; nothing where it is right.
pub fn difference(told: &Outcome) -> Option<String> {
    let wrong = match told.left.question {
        Reasons if told.code == 0 => of_lines(told, 5).or_else(|| of_our_own(told)),
        CheckReasons if told.code == 0 => of_lines(told, 1),
        _ => None,
    };
    wrong.map(|wrong| {
        let (chart, lines) = (told.left.chart.part(), told.reasons());
        format!("{:?} {chart:02x?}\n  {lines:?}\n  told {}: {wrong}", told.left.question, told.left.numbers[0])
    })
}

/// The number told is so many for each line, and each line's formula tells its pair apart.
fn of_lines(told: &Outcome, each: u64) -> Option<&'static str> {
    let lines = told.reasons();
    if told.left.numbers[0] != each * lines.len() as u64 {
        return Some("not the number of its lines");
    }
    let Some(formulas) = formulas(told.left.chart.part(), lines) else { return Some("a line spells nothing") };
    let told_apart = |(&[p, q, ..], f): (&[u8; 5], &Formula)| f.holds >> p & 1 == 1 && f.holds >> q & 1 == 0;
    (!lines.iter().zip(&formulas).all(told_apart)).then_some("a formula does not tell its pair apart")
}

/// Our own list rises by depth, p and q, and the pairs that it lacks are a bisimulation.
fn of_our_own(told: &Outcome) -> Option<&'static str> {
    let (chart, lines) = (told.left.chart.part(), told.reasons());
    let keys: Vec<_> = formulas(chart, lines)?.iter().zip(lines).map(|(f, line)| (f.depth, line[0], line[1])).collect();
    if !keys.is_sorted_by(|a, b| a < b) {
        return Some("the lines do not rise");
    }
    let steps = Steps::of(chart);
    let mut lacks = [steps.all(); 64];
    lines.iter().for_each(|line| lacks[line[0] as usize] &= !(1 << line[1]));
    let answers = |p: usize, q: usize| steps.to.iter().all(|to| members(to[p]).all(|t| to[q] & lacks[t] != 0));
    // the list has both orders of a pair or neither
    let both_orders = (0..steps.n).all(|p| members(lacks[p]).all(|q| lacks[q] >> p & 1 == 1));
    let bisimulation = (0..steps.n).all(|p| members(lacks[p]).all(|q| answers(p, q)));
    (!both_orders || !bisimulation).then_some("an unequal pair has no line")
}
