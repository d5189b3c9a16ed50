//! The comparison of two charts in Rust: of the archive's own shape, and as fast as we know.

use crate::read::{self, Shape};
use crate::same_shape;
use crate::words::{split, Steps};

/// The index of each code that one of the charts has, rising, and how many there are.
fn indices(charts: [(&[u8], Shape); 2]) -> ([u8; 256], usize) {
    let mut present = [false; 256];
    for (chart, shape) in charts {
        for &code in &chart[2 + shape.n..2 + shape.n + shape.m] {
            present[code as usize] = true;
        }
    }
    let mut index = [0; 256];
    let mut count = 0;
    for (code, _) in present.iter().enumerate().filter(|(_, &present)| present) {
        index[code] = count as u8;
        count += 1;
    }
    (index, count)
}

/// The shapes of both, where they fit together; the index of each code, and how many codes there are.
fn read_both(first: &[u8], second: &[u8]) -> Option<([Shape; 2], [u8; 256], usize)> {
    let shapes = [read::chart(first)?, read::chart(second)?];
    let steps = (first.len() - shapes[0].at + second.len() - shapes[1].at) / 3;
    let (index, count) = indices([(first, shapes[0]), (second, shapes[1])]);
    (shapes[0].n + shapes[1].n <= 64 && count <= 32 && steps <= 1024).then_some((shapes, index, count))
}

/// Each step of a chart, its states moved on by so many and its action the index of its code.
fn moved<'a>(chart: &'a [u8], shape: Shape, index: &'a [u8; 256], by: u8) -> impl Iterator<Item = [u8; 3]> + 'a {
    let codes = &chart[2 + shape.n..2 + shape.n + shape.m];
    let triples = chart[shape.at..].as_chunks().0.iter();
    triples.map(move |&[source, action, target]| [source + by, index[codes[action as usize] as usize], target + by])
}

/// The side-by-side chart; its length.
fn side_by_side(charts: [&[u8]; 2], shapes: [Shape; 2], index: &[u8; 256], count: usize, out: &mut [u8; 3172]) -> usize {
    let [n1, n2] = shapes.map(|shape| shape.n);
    let n = n1 + n2;
    out[0] = n as u8;
    out[1..1 + n1].copy_from_slice(&charts[0][1..1 + n1]);
    out[1 + n1..1 + n].copy_from_slice(&charts[1][1..1 + n2]);
    out[1 + n] = count as u8;
    for (chart, shape) in charts.into_iter().zip(shapes) {
        for &code in &chart[2 + shape.n..2 + shape.n + shape.m] {
            out[2 + n + index[code as usize] as usize] = code;
        }
    }
    let mut at = 4 + n + count;
    for (chart, shape, by) in [(charts[0], shapes[0], 0), (charts[1], shapes[1], n1 as u8)] {
        for triple in moved(chart, shape, index, by) {
            out[at..at + 3].copy_from_slice(&triple);
            at += 3;
        }
    }
    let steps = (at - 4 - n - count) / 3;
    out[2 + n + count..4 + n + count].copy_from_slice(&(steps as u16).to_le_bytes());
    at
}

/// Appends a count and the states from `low` to `high` that are alone, numbered from `low`.
fn append(list: &mut [u8; 67], at: usize, low: usize, high: usize, alone: impl Fn(usize) -> bool) -> usize {
    let mut end = at + 1;
    for s in low..high {
        if alone(s) {
            list[end] = (s - low) as u8;
            end += 1;
        }
    }
    list[at] = (end - at - 1) as u8;
    end
}

/// The length written and the rounds. The two are written as one chart, whose marks are taken; then each state's row is searched.
#[inline(never)]
pub fn same_shape(first: &[u8], second: &[u8], buffer: &mut [u8]) -> Option<(u64, u64)> {
    let (shapes, index, count) = read_both(first, second)?;
    let mut chart = [0; 3172];
    let length = side_by_side([first, second], shapes, &index, count, &mut chart);
    let mut cells = [0; 4096];
    let rounds = same_shape::marks(&chart[..length], &mut cells)?;
    let (n1, n) = (shapes[0].n, shapes[0].n + shapes[1].n);
    let mut list = [0; 67];
    list[0] = cells[n1];
    let between = append(&mut list, 1, 0, n1, |p| cells[p * n + n1..p * n + n].iter().all(|&mark| mark != 0));
    let end = append(&mut list, between, n1, n, |q| cells[q * n..q * n + n1].iter().all(|&mark| mark != 0));
    buffer.get_mut(..end)?.copy_from_slice(&list[..end]);
    Some((end as u64, rounds))
}

/// The length written and the rounds. The steps of both are taken as words at once; a state is alone where its block has no state
/// of the other chart.
#[inline(never)]
pub fn words(first: &[u8], second: &[u8], buffer: &mut [u8]) -> Option<(u64, u64)> {
    let (shapes, index, count) = read_both(first, second)?;
    let (n1, n) = (shapes[0].n, shapes[0].n + shapes[1].n);
    let mut steps = Steps::none(n, count);
    for (chart, shape, by) in [(first, shapes[0], 0), (second, shapes[1], n1 as u8)] {
        for [source, action, target] in moved(chart, shape, &index, by) {
            steps.add(source as usize, action as usize, target as usize);
        }
    }
    let mut list = [0; 67];
    let (near, rounds) = split(&steps, |p, fallen, k, _| {
        if p == 0 && fallen >> n1 & 1 == 1 {
            list[0] = k;
        }
    });
    let of_first = read::all(n1);
    let between = append(&mut list, 1, 0, n1, |p| near[p] & !of_first == 0);
    let end = append(&mut list, between, n1, n, |q| near[q] & of_first == 0);
    buffer.get_mut(..end)?.copy_from_slice(&list[..end]);
    Some((end as u64, rounds))
}
