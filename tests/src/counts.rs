//! What a chart's bytes say of its size, whether the chart is good or not.

use std::collections::BTreeSet;

/// The counts of a chart; one whose bytes are absent is 0.
#[derive(Clone, Copy)]
pub struct Counts {
    pub states: usize,
    pub actions: usize,
    pub transitions: usize,
}

/// A byte of a chart, 0 where there is none.
pub fn byte(chart: &[u8], at: usize) -> usize {
    chart.get(at).copied().unwrap_or(0) as usize
}

impl Counts {
    pub fn of(chart: &[u8]) -> Counts {
        let states = byte(chart, 0);
        let actions = byte(chart, 1 + states);
        let end = states + actions + 4;
        Counts { states, actions, transitions: byte(chart, end - 2) + 256 * byte(chart, end - 1) }
    }

    /// Where the triples start.
    pub fn first_triple(&self) -> usize {
        self.states + self.actions + 4
    }
}

/// How many action codes two good charts have, those that both have once.
pub fn codes_together(first: &[u8], second: &[u8]) -> usize {
    let codes = |chart: &[u8]| {
        let Counts { states, actions, .. } = Counts::of(chart);
        chart[2 + states..2 + states + actions].to_vec()
    };
    codes(first).into_iter().chain(codes(second)).collect::<BTreeSet<_>>().len()
}
