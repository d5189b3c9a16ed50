//! The property sheet.

use super::refusal::{Cursor, Input, Refusal};

#[derive(Clone, Copy, PartialEq, Eq, Debug)]
pub enum Action {
    Only(u8),
    /// Byte 255.
    Every,
}

#[derive(Clone, PartialEq, Eq, Debug)]
pub enum Formula {
    Variable,
    True,
    False,
    And(Box<Formula>, Box<Formula>),
    Or(Box<Formula>, Box<Formula>),
    Diamond(Action, Box<Formula>),
    Box(Action, Box<Formula>),
}

#[derive(Clone, Copy, PartialEq, Eq, Debug)]
pub enum Solution {
    Least,
    Greatest,
}

/// Kinds: 0 unsaid, 1 least, 2 greatest. Unsaid is read as least, by document 02 (T-06).
pub fn solution_of(kind: u8) -> Solution {
    match kind {
        0 => Solution::Least,
        1 => Solution::Least,
        2 => Solution::Greatest,
        _ => unreachable!("no such kind is accepted"),
    }
}

#[derive(Clone, PartialEq, Eq, Debug)]
pub struct Sheet {
    pub kind: u8,
    pub nodes: usize,
    pub formula: Formula,
    /// Where the first variable stands, if there is one.
    pub variable_at: Option<usize>,
}

/// The sheet, from the first byte on, for a chart of m actions.
pub fn read(bytes: &[u8], m: usize) -> Result<Sheet, Refusal> {
    let mut c = Cursor::new(Input::Sheet, bytes);
    let equations = c.byte("equation count")?;
    if equations != 1 {
        return c.refuse(9, 0, "equation count");
    }
    let kind = c.byte("kind")?;
    if kind > 2 {
        return c.refuse(9, 1, "kind");
    }
    let nodes = c.byte("node count")?;
    if nodes == 0 {
        return c.refuse(10, 2, "no node");
    }
    if nodes > 200 {
        return c.refuse(10, 2, "too many nodes");
    }
    let mut left = nodes as usize;
    let mut variable_at = None;
    let formula = read_formula(&mut c, m, &mut left, &mut variable_at)?;
    if left > 0 {
        return c.refuse(13, c.at, "complete while nodes remain");
    }
    c.end()?;
    Ok(Sheet { kind, nodes: nodes as usize, formula, variable_at })
}

/// An operator is followed at once by its operands, left before right. `left` nodes remain to be read.
fn read_formula(c: &mut Cursor, m: usize, left: &mut usize, variable_at: &mut Option<usize>) -> Result<Formula, Refusal> {
    if *left == 0 {
        return c.refuse(13, c.at, "used up and operands missing");
    }
    *left -= 1;
    let node = c.byte("node")?;
    match node {
        0 => {
            if variable_at.is_none() {
                *variable_at = Some(c.at - 1);
            }
            Ok(Formula::Variable)
        }
        1 => Ok(Formula::True),
        2 => Ok(Formula::False),
        3 | 4 => {
            let f = Box::new(read_formula(c, m, left, variable_at)?);
            let g = Box::new(read_formula(c, m, left, variable_at)?);
            Ok(if node == 3 { Formula::And(f, g) } else { Formula::Or(f, g) })
        }
        5 | 6 => {
            let action = match c.byte("action byte of a node")? {
                255 => Action::Every,
                a if (a as usize) < m => Action::Only(a),
                _ => return c.refuse(12, c.at - 1, if node == 5 { "action of a diamond" } else { "action of a box" }),
            };
            let f = Box::new(read_formula(c, m, left, variable_at)?);
            Ok(if node == 5 { Formula::Diamond(action, f) } else { Formula::Box(action, f) })
        }
        _ => c.refuse(11, c.at - 1, if c.at == 4 { "first node" } else { "later node" }),
    }
}

/// The layout of a sheet.
pub fn bytes(kind: u8, formula: &Formula) -> Vec<u8> {
    let mut out = vec![1, kind, nodes(formula) as u8];
    write(formula, &mut out);
    out
}

pub fn nodes(formula: &Formula) -> usize {
    match formula {
        Formula::Variable | Formula::True | Formula::False => 1,
        Formula::And(f, g) | Formula::Or(f, g) => 1 + nodes(f) + nodes(g),
        Formula::Diamond(_, f) | Formula::Box(_, f) => 1 + nodes(f),
    }
}

fn write(formula: &Formula, out: &mut Vec<u8>) {
    let byte = |action: &Action| match *action {
        Action::Only(a) => a,
        Action::Every => 255,
    };
    match formula {
        Formula::Variable => out.push(0),
        Formula::True => out.push(1),
        Formula::False => out.push(2),
        Formula::And(f, g) => {
            out.push(3);
            write(f, out);
            write(g, out);
        }
        Formula::Or(f, g) => {
            out.push(4);
            write(f, out);
            write(g, out);
        }
        Formula::Diamond(a, f) => {
            out.extend([5, byte(a)]);
            write(f, out);
        }
        Formula::Box(a, f) => {
            out.extend([6, byte(a)]);
            write(f, out);
        }
    }
}
