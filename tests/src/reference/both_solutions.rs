//! Both solutions of any accepted sheet, whatever its kind byte says: document 02, T-06.

use super::chart;
use super::property::{solved, Satisfying};
use super::refusal::Refusal;
use super::sheet::{self, Solution};

#[derive(Clone, Copy, PartialEq, Eq, Debug)]
pub struct BothSolutions {
    pub least: Satisfying,
    pub greatest: Satisfying,
}

/// Least first, each with its count and rounds. What is refused is what the property question refuses.
pub fn both_solutions(chart: &[u8], sheet: &[u8]) -> Result<BothSolutions, Refusal> {
    let chart = chart::read(chart)?;
    let sheet = sheet::read(sheet, chart.actions())?;
    let least = solved(&chart, &sheet.formula, Solution::Least)?;
    let greatest = solved(&chart, &sheet.formula, Solution::Greatest)?;
    Ok(BothSolutions { least, greatest })
}
