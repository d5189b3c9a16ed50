//! Both solutions of a sheet; kind 0, which reads as least; and the kinds that short forms write: document 02, T-06. Refusals of both
//! solutions are in places.rs, lines.rs, reader.rs, damaged.rs and small.rs, their order in order.rs, boards in boards.rs.

mod before;
mod definitions;
mod halves;
mod laws;

use crate::Job;

pub fn jobs() -> Vec<Job> {
    [halves::jobs(), definitions::jobs(), laws::jobs(), before::jobs()].into_iter().flatten().collect()
}
