//! Equal rows and equal pairs, as fast as we know: the rounds of splitting, in which nothing is written where states fall. Those of the
//! archive's own shape stand beside its marks.

use crate::read;
use crate::words::{split, Steps};

/// The blocks of equal states, and how many states there are.
#[inline(always)]
fn blocks(chart: &[u8]) -> Option<([u64; 64], usize)> {
    let shape = read::chart(chart)?;
    let (near, _) = split(&Steps::new(chart, shape), |_, _, _, _| {});
    Some((near, shape.n))
}

/// The rows of equal states, those from n on 0, and how many states there are.
#[inline(never)]
pub fn rows(chart: &[u8]) -> Option<([u64; 64], u64)> {
    let (mut near, n) = blocks(chart)?;
    near[n..].fill(0);
    Some((near, n as u64))
}

/// How many pairs are equal.
#[inline(never)]
pub fn pairs(chart: &[u8]) -> Option<u64> {
    let (near, n) = blocks(chart)?;
    Some(near[..n].iter().map(|block| block.count_ones() as u64).sum())
}
