//! Document 01 once more, written from its text alone: charts, sheets, their refusals and the four questions; and of document 02
//! the comparison, the lines of faulty triples, the lists of reasons, both solutions of a sheet, and which states are equal. It is made
//! to be read beside the documents, and not to be fast. The checks hold the proved archive against it.

pub mod both_solutions;
pub mod chart;
pub mod check_reasons;
pub mod compare;
pub mod equal;
pub mod nearness;
pub mod property;
pub mod reasons;
pub mod refusal;
pub mod settle;
pub mod sheet;
pub mod short_form;
