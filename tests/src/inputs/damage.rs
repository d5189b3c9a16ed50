//! Damage: an input with a fault in it, or nearly one.

use super::random::Random;

/// Where the counts of a chart stand: states, actions, transitions.
pub fn chart_counts(chart: &[u8]) -> Vec<usize> {
    let n = chart[0] as usize;
    let m = chart[1 + n] as usize;
    vec![0, 1 + n, 2 + n + m, 3 + n + m]
}

/// Where the counts of a sheet stand, the kind among them.
pub fn sheet_counts() -> Vec<usize> {
    vec![0, 1, 2]
}

/// One small change of any kind. `counts` says where the counts stand.
pub fn any(r: &mut Random, bytes: &[u8], counts: &[usize]) -> Vec<u8> {
    let mut out = bytes.to_vec();
    let length = out.len();
    if length == 0 {
        return vec![r.byte()];
    }
    let at = r.below(length);
    match r.below(9) {
        0 => out.truncate(at),
        1 => out[at] = r.byte(),
        2 => out[at] = out[at].wrapping_add(1),
        3 => out[at] = out[at].wrapping_sub(1),
        4 => out[at] = [0, 1, 2, 3, 4, 5, 6, 7, 32, 33, 64, 65, 200, 201, 254, 255][r.below(16)],
        5 => {
            for _ in 0..r.within(1, 4) {
                out.push(r.byte());
            }
        }
        6 => out.insert(at, r.byte()),
        7 => {
            out.remove(at);
        }
        _ => {
            let at = counts[r.below(counts.len())].min(length - 1);
            out[at] = if r.once_in(2) { out[at].wrapping_add(1) } else { out[at].wrapping_sub(1) };
        }
    }
    out
}

/// Two triples of a chart change places, or one takes the place of another.
pub fn triples(r: &mut Random, chart: &[u8]) -> Vec<u8> {
    let mut out = chart.to_vec();
    let first = chart_counts(chart)[3] + 1;
    let count = (chart.len() - first) / 3;
    if count >= 2 {
        let i = first + 3 * r.below(count - 1);
        let j = if r.once_in(2) { i + 3 } else { first + 3 * r.below(count) };
        for k in 0..3 {
            match r.below(4) {
                0 => out[j + k] = chart[i + k],
                _ => out.swap(i + k, j + k),
            }
        }
    }
    out
}
