//! The parts of the checks, each a list of jobs.

pub mod boards;
pub mod both;
pub mod comparison;
pub mod damaged;
pub mod definitions;
pub mod equal;
pub mod forms;
pub mod lines;
pub mod order;
pub mod places;
pub mod reader;
pub mod reasons;
pub mod rounds;
pub mod sizes;
pub mod small;
pub mod steps;
pub mod valid;

use crate::checker::Checker;
use crate::Job;
use std::ops::RangeInclusive;

/// A name, sizes, and what is asked of each.
type Sized = (&'static str, RangeInclusive<usize>, fn(&mut Checker, usize));

/// Eight jobs for each of these, which share the sizes.
fn shared<const N: usize>(parts: [Sized; N]) -> Vec<Job> {
    let mut jobs = Vec::new();
    for k in 0..8 {
        jobs.extend(parts.clone().map(|(name, sizes, ask)| Job {
            name,
            run: Box::new(move |c| sizes.clone().filter(|size| size % 8 == k).for_each(|size| ask(c, size))),
        }));
    }
    jobs
}

pub fn jobs() -> Vec<Job> {
    // the longest first, so that the threads end together
    [
        rounds::jobs(),
        sizes::jobs(),
        places::jobs(),
        lines::jobs(),
        damaged::jobs(),
        comparison::jobs(),
        reasons::jobs(),
        both::jobs(),
        equal::jobs(),
        valid::jobs(),
        small::jobs(),
        definitions::jobs(),
        forms::jobs(),
        order::jobs(),
        boards::jobs(),
        steps::jobs(),
        reader::jobs(),
    ]
    .into_iter()
    .flatten()
    .collect()
}
