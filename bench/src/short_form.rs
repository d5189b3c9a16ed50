//! The short forms in Rust: of the archive's own shape, and as fast as we know.

use crate::read;

/// What the table has for a name: the kind, the operator before F and the operand after it.
fn table(name: u64) -> Option<(u8, u8, &'static [u8])> {
    match name {
        0 => Some((2, 3, &[6, 255, 0])),
        1 => Some((1, 4, &[5, 255, 0])),
        2 => Some((2, 3, &[4, 6, 255, 2, 5, 255, 0])),
        3 => Some((1, 4, &[3, 5, 255, 1, 6, 255, 0])),
        _ => None,
    }
}

/// The sheet of the form, where F has no variable; its length.
fn write(sheet: &[u8], name: u64, buffer: &mut [u8]) -> Option<u64> {
    let (kind, operator, operand) = table(name)?;
    let nodes = sheet[2] as usize + if name < 2 { 3 } else { 6 };
    if nodes > 200 {
        return None;
    }
    let size = sheet.len() + 1 + operand.len();
    let out = buffer.get_mut(..size)?;
    out[..4].copy_from_slice(&[1, kind, nodes as u8, operator]);
    out[4..size - operand.len()].copy_from_slice(&sheet[3..]);
    out[size - operand.len()..].copy_from_slice(operand);
    Some(size as u64)
}

/// The length written. The sheet is read, and then searched for a variable.
#[inline(never)]
pub fn same_shape(chart: &[u8], sheet: &[u8], name: u64, buffer: &mut [u8]) -> Option<u64> {
    let shape = read::chart(chart)?;
    read::sheet(sheet, shape.m)?;
    let mut label = false;
    for &byte in &sheet[3..] {
        if !label && byte == 0 {
            return None;
        }
        label = !label && byte > 4;
    }
    write(sheet, name, buffer)
}

/// The length written. One pass reads the formula, counts what is still to come, and meets a variable.
#[inline(never)]
pub fn one_pass(chart: &[u8], sheet: &[u8], name: u64, buffer: &mut [u8]) -> Option<u64> {
    let shape = read::chart(chart)?;
    let &[1, 0..=2, nodes @ 1..=200, ref bytes @ ..] = sheet else { return None };
    let (mut due, mut read, mut at) = (1, 0, 0);
    while due > 0 {
        match *bytes.get(at)? {
            1 | 2 => due -= 1,
            3 | 4 => due += 1,
            5 | 6 => {
                at += 1;
                let action = *bytes.get(at)?;
                if action as usize >= shape.m && action != 255 {
                    return None;
                }
            }
            _ => return None,
        }
        at += 1;
        read += 1;
    }
    if read != nodes || at != bytes.len() {
        return None;
    }
    write(sheet, name, buffer)
}
