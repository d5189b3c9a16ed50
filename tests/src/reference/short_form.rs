//! The four short forms.

use super::chart;
use super::refusal::{long_enough, Input, Refusal};
use super::sheet::{self, Action, Formula};

/// Document 01's table, with name 3 and the kinds of names 0 and 2 as document 02 has them (T-05, T-06): the kind written, and the
/// formula made of F.
pub fn table(name: u64, f: Formula) -> Option<(u8, Formula)> {
    use Formula::{And, Diamond, False, Or, True, Variable};
    let boxed = |g| Box::new(Formula::Box(Action::Every, Box::new(g)));
    let diamond = |g| Box::new(Diamond(Action::Every, Box::new(g)));
    let f = Box::new(f);
    match name {
        0 => Some((2, And(f, boxed(Variable)))),
        1 => Some((1, Or(f, diamond(Variable)))),
        2 => Some((2, And(f, Box::new(Or(boxed(False), diamond(Variable)))))),
        3 => Some((1, Or(f, Box::new(And(diamond(True), boxed(Variable)))))),
        _ => None,
    }
}

/// How many bytes longer than F's sheet the sheet of a short form is.
pub fn added(name: u64) -> usize {
    table(name, Formula::True)
        .map_or(0, |(kind, formula)| sheet::bytes(kind, &formula).len() - sheet::bytes(0, &Formula::True).len())
}

/// The length written.
pub fn short_form(chart: &[u8], sheet: &[u8], name: u64, buffer: &mut [u8]) -> Result<u64, Refusal> {
    let chart = chart::read(chart)?;
    let sheet = sheet::read(sheet, chart.actions())?;
    if let Some(place) = sheet.variable_at {
        return Err(Refusal { input: Input::Sheet, number: 16, place, byte: 0, what: "variable" });
    }
    let Some((kind, formula)) = table(name, sheet.formula) else {
        return Err(Refusal { input: Input::BufferOrName, number: 17, place: 0, byte: 0, what: "name" });
    };
    if sheet::nodes(&formula) > 200 {
        return Err(Refusal { input: Input::Sheet, number: 10, place: 2, byte: 0, what: "too many nodes in the result" });
    }
    let bytes = sheet::bytes(kind, &formula);
    long_enough(buffer, bytes.len())?;
    buffer[..bytes.len()].copy_from_slice(&bytes);
    Ok(bytes.len() as u64)
}
