//! Inputs: charts, pairs of them, sheets and lists of reasons, of every size and shape, and damage; and charts with a formula whose
//! solutions are known.

pub mod charts;
pub mod damage;
pub mod halves;
pub mod lists;
pub mod pairs;
pub mod random;
pub mod sheets;
