//! The chart file.

use super::refusal::{Cursor, Input, Refusal};

/// A transition. Steps are ordered by source, then action, then target, as the fields stand.
#[derive(Clone, Copy, PartialEq, Eq, PartialOrd, Ord, Debug)]
pub struct Step {
    pub source: u8,
    pub action: u8,
    pub target: u8,
}

#[derive(Clone, PartialEq, Eq, Debug)]
pub struct Chart {
    /// A mode code for each state.
    pub modes: Vec<u8>,
    /// An action code for each action.
    pub codes: Vec<u8>,
    pub steps: Vec<Step>,
}

impl Chart {
    pub fn states(&self) -> usize {
        self.modes.len()
    }

    pub fn actions(&self) -> usize {
        self.codes.len()
    }

    /// The steps of each state.
    pub fn steps_by_source(&self) -> Vec<Vec<Step>> {
        let mut of = vec![Vec::new(); self.states()];
        for &step in &self.steps {
            of[step.source as usize].push(step);
        }
        of
    }

    /// The layout of the file.
    pub fn bytes(&self) -> Vec<u8> {
        let mut out = vec![self.modes.len() as u8];
        out.extend(&self.modes);
        out.push(self.codes.len() as u8);
        out.extend(&self.codes);
        out.extend((self.steps.len() as u16).to_le_bytes());
        for s in &self.steps {
            out.extend([s.source, s.action, s.target]);
        }
        out
    }
}

/// The chart, from the first byte on, each byte judged as read.
pub fn read(bytes: &[u8]) -> Result<Chart, Refusal> {
    let mut c = Cursor::new(Input::Chart, bytes);
    let modes = read_states(&mut c)?;
    let codes = read_actions(&mut c)?;
    let steps = read_transitions(&mut c, modes.len(), codes.len())?;
    c.end()?;
    Ok(Chart { modes, codes, steps })
}

fn read_states(c: &mut Cursor) -> Result<Vec<u8>, Refusal> {
    let n = c.byte("state count")?;
    if n == 0 {
        return c.refuse(2, 0, "no state");
    }
    if n > 64 {
        return c.refuse(2, 0, "too many states");
    }
    (0..n).map(|_| c.byte("mode code")).collect()
}

fn read_actions(c: &mut Cursor) -> Result<Vec<u8>, Refusal> {
    let m = c.byte("action count")?;
    if m > 32 {
        return c.refuse(3, c.at - 1, "action count");
    }
    let mut codes: Vec<u8> = Vec::new();
    for _ in 0..m {
        let code = c.byte("action code")?;
        if let Some(&before) = codes.last() {
            if code <= before {
                return c.refuse(4, c.at - 1, if code == before { "equal code" } else { "smaller code" });
            }
        }
        codes.push(code);
    }
    Ok(codes)
}

fn read_transitions(c: &mut Cursor, n: usize, m: usize) -> Result<Vec<Step>, Refusal> {
    let count_at = c.at;
    let low = c.byte("low byte of the transition count")? as usize;
    let high = c.byte("high byte of the transition count")? as usize;
    let t = low + 256 * high;
    if t > 1024 {
        return c.refuse(5, count_at, "transition count");
    }
    let mut steps: Vec<Step> = Vec::new();
    for triple in 0..t {
        let source = below(c, n, (triple, 0), "source")?;
        let action = below(c, m, (triple, 1), "action")?;
        let target = below(c, n, (triple, 2), "target")?;
        let step = Step { source, action, target };
        if let Some(&before) = steps.last() {
            if step <= before {
                return c.refuse_triple(7, (triple, 0), order_fault(step, before));
            }
        }
        steps.push(step);
    }
    Ok(steps)
}

/// A state or action byte, by its triple's number and which of the three it is. 6: it is out of range.
fn below(c: &mut Cursor, bound: usize, line: (usize, u8), what: &'static str) -> Result<u8, Refusal> {
    let byte = c.byte(what)?;
    if byte as usize >= bound {
        return c.refuse_triple(6, line, what);
    }
    Ok(byte)
}

fn order_fault(step: Step, before: Step) -> &'static str {
    if step == before {
        "equal triple"
    } else if step.source < before.source {
        "smaller source"
    } else if step.action < before.action {
        "smaller action"
    } else {
        "smaller target"
    }
}
