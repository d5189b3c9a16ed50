//! Sheets that follow the layout.

use super::random::Random;

/// What the leaves of a formula may be.
#[derive(Clone, Copy, PartialEq)]
pub enum Leaves {
    WithVariable,
    WithoutVariable,
}

/// In which operand operators are nested.
#[derive(Clone, Copy, PartialEq)]
pub enum Side {
    Left,
    Right,
    InTurn,
}

/// A sheet with a formula of exactly `nodes` nodes, for m actions.
pub fn drawn(r: &mut Random, nodes: usize, m: usize, leaves: Leaves) -> Vec<u8> {
    let mut out = vec![1, r.below(3) as u8, nodes as u8];
    formula(r, nodes, m, leaves, &mut out);
    out
}

fn formula(r: &mut Random, nodes: usize, m: usize, leaves: Leaves, out: &mut Vec<u8>) {
    if nodes == 1 {
        out.push(match leaves {
            Leaves::WithVariable => [0, 0, 1, 2][r.below(4)],
            Leaves::WithoutVariable => [1, 2][r.below(2)],
        });
    } else if nodes == 2 || r.below(2) == 0 {
        out.push([5, 6][r.below(2)]);
        out.push(action(r, m));
        formula(r, nodes - 1, m, leaves, out);
    } else {
        out.push([3, 4][r.below(2)]);
        let first = r.within(1, nodes - 2);
        formula(r, first, m, leaves, out);
        formula(r, nodes - 1 - first, m, leaves, out);
    }
}

fn action(r: &mut Random, m: usize) -> u8 {
    if m == 0 || r.once_in(3) {
        255
    } else {
        r.below(m) as u8
    }
}

/// Formulas of the kind that people write, which take many rounds: F and/or, a step to X.
pub fn recursive(r: &mut Random, m: usize) -> Vec<u8> {
    let mut f = Vec::new();
    let size = r.within(1, 5);
    formula(r, size, m, Leaves::WithoutVariable, &mut f);
    let mut out = vec![1, r.below(3) as u8, size as u8 + 3, [3, 4][r.below(2)]];
    out.extend(&f);
    out.extend([[5, 6][r.below(2)], action(r, m), 0]);
    out
}

/// A sheet of the same meaning with `nodes` nodes, at least four more: "and" with what is true and "or" with what is false,
/// whatever formulas these hold.
pub fn padded(r: &mut Random, sheet: &[u8], nodes: usize, m: usize) -> Vec<u8> {
    let mut whole = sheet[3..].to_vec();
    let mut left = nodes - sheet[2] as usize;
    while left > 0 {
        let mut size = r.within(1, left - 3);
        if left - 3 - size < 4 {
            size = left - 3;
        }
        left -= 3 + size;
        let [outer, inner, leaf] = [[3, 4, 1], [4, 3, 2]][r.below(2)];
        let mut neutral = vec![inner, leaf];
        formula(r, size, m, Leaves::WithVariable, &mut neutral);
        whole = if r.once_in(2) {
            [&[outer], neutral.as_slice(), &whole].concat()
        } else {
            [&[outer], whole.as_slice(), &neutral].concat()
        };
    }
    [&[sheet[0], sheet[1], nodes as u8], whole.as_slice()].concat()
}

/// A sheet of so many bytes: an even number from 4 to 402.
pub fn of_length(r: &mut Random, length: usize, m: usize) -> Vec<u8> {
    let operators = (length - 4) / 2;
    let of_two = r.within(0, operators.min(199 - operators));
    let mut out = vec![1, r.below(3) as u8, (operators + of_two + 1) as u8];
    shaped(r, operators - of_two, of_two, m, &mut out);
    out
}

/// A formula with so many diamonds and boxes, and so many operators of two operands.
fn shaped(r: &mut Random, of_one: usize, of_two: usize, m: usize, out: &mut Vec<u8>) {
    if of_one + of_two == 0 {
        out.push([0, 0, 1, 2][r.below(4)]);
    } else if r.below(of_one + of_two) < of_one {
        out.extend([[5, 6][r.below(2)], action(r, m)]);
        shaped(r, of_one - 1, of_two, m, out);
    } else {
        out.push([3, 4][r.below(2)]);
        let (one, two) = (r.within(0, of_one), r.within(0, of_two - 1));
        shaped(r, one, two, m, out);
        shaped(r, of_one - one, of_two - 1 - two, m, out);
    }
}

/// Operators of two operands nested so deep, 1 to 99, each the left operand of the one before, or each the right, or in turn; and a few
/// diamonds and boxes among them.
pub fn comb(r: &mut Random, depth: usize, side: Side, m: usize, leaves: Leaves) -> Vec<u8> {
    let leaf = |r: &mut Random| if leaves == Leaves::WithVariable { r.below(3) as u8 } else { r.within(1, 2) as u8 };
    let mut formula = vec![leaf(r)];
    let mut nodes = 1;
    for i in 0..depth {
        let left = side == Side::Left || side == Side::InTurn && i % 2 == 0;
        let (operator, other) = ([3, 4][r.below(2)], leaf(r));
        formula = if left {
            [&[operator], formula.as_slice(), &[other]].concat()
        } else {
            [&[operator, other], formula.as_slice()].concat()
        };
        nodes += 2;
        if nodes + 2 * (depth - 1 - i) < 200 && r.once_in(4) {
            formula = [&[[5, 6][r.below(2)], action(r, m)], formula.as_slice()].concat();
            nodes += 1;
        }
    }
    [&[1, r.below(3) as u8, nodes as u8], formula.as_slice()].concat()
}

/// Any of these, with at most `largest` nodes.
pub fn any(r: &mut Random, largest: usize, m: usize) -> Vec<u8> {
    match r.below(3) {
        0 => recursive(r, m),
        1 => {
            let nodes = r.within(1, largest);
            drawn(r, nodes, m, Leaves::WithoutVariable)
        }
        _ => {
            let nodes = r.within(1, largest);
            drawn(r, nodes, m, Leaves::WithVariable)
        }
    }
}

/// A formula of so many nodes, all but the last a diamond or a box.
pub fn nested(r: &mut Random, nodes: usize, m: usize) -> Vec<u8> {
    let mut out = vec![1, r.below(3) as u8, nodes as u8];
    for _ in 1..nodes {
        out.extend([[5, 6][r.below(2)], action(r, m)]);
    }
    out.push(1);
    out
}

/// 200 of them: 402 bytes.
pub fn longest(r: &mut Random, m: usize) -> Vec<u8> {
    nested(r, 200, m)
}
