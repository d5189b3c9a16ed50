//! Rounds: the least k such that k applications equal k + 1.

use super::refusal::{Input, Refusal};

/// The settled value and the rounds. 15: 4,096 rounds are done and a further one still changes the answer.
pub fn settle<T: PartialEq>(start: T, mut next: impl FnMut(&T) -> T) -> Result<(T, u64), Refusal> {
    let mut now = start;
    let mut rounds = 0;
    loop {
        let after = next(&now);
        if after == now {
            return Ok((now, rounds));
        }
        if rounds == 4096 {
            return Err(Refusal { input: Input::BufferOrName, number: 15, place: 0, byte: 0, what: "rounds" });
        }
        now = after;
        rounds += 1;
    }
}
