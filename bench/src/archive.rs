//! The archive's calls, as include/rebatelion.h declares them.

mod raw {
    extern "C" {
        pub fn rebatelion_marks(c: *const u8, cn: usize, b: *mut u8, bn: usize, states: &mut u64, rounds: &mut u64) -> u64;
        pub fn rebatelion_simulation(c: *const u8, cn: usize, b: *mut u8, bn: usize, states: &mut u64, rounds: &mut u64)
            -> u64;
        pub fn rebatelion_property(
            c: *const u8,
            cn: usize,
            s: *const u8,
            sn: usize,
            word: &mut u64,
            count: &mut u64,
            rounds: &mut u64,
        ) -> u64;
        pub fn rebatelion_short_form(
            c: *const u8,
            cn: usize,
            s: *const u8,
            sn: usize,
            name: u64,
            b: *mut u8,
            bn: usize,
            written: &mut u64,
        ) -> u64;
        pub fn rebatelion_compare(
            c: *const u8,
            cn: usize,
            s: *const u8,
            sn: usize,
            b: *mut u8,
            bn: usize,
            written: &mut u64,
            rounds: &mut u64,
        ) -> u64;
        pub fn rebatelion_reasons(c: *const u8, cn: usize, b: *mut u8, bn: usize, written: &mut u64) -> u64;
        pub fn rebatelion_check_reasons(c: *const u8, cn: usize, l: *const u8, ln: usize, lines: &mut u64) -> u64;
        pub fn rebatelion_both_solutions(
            c: *const u8,
            cn: usize,
            s: *const u8,
            sn: usize,
            least: &mut [u64; 3],
            greatest: &mut [u64; 3],
        ) -> u64;
        pub fn rebatelion_equal_rows(c: *const u8, cn: usize, rows: &mut [u64; 64], states: &mut u64) -> u64;
        pub fn rebatelion_equal_pairs(c: *const u8, cn: usize, pairs: &mut u64) -> u64;
    }
}

pub fn marks(chart: &[u8], buffer: &mut [u8]) -> Option<u64> {
    let (mut states, mut rounds) = (0, 0);
    // SAFETY: slices of these lengths
    let code = unsafe {
        raw::rebatelion_marks(chart.as_ptr(), chart.len(), buffer.as_mut_ptr(), buffer.len(), &mut states, &mut rounds)
    };
    (code == 0).then_some(rounds)
}

pub fn simulation(chart: &[u8], buffer: &mut [u8]) -> Option<u64> {
    let (mut states, mut rounds) = (0, 0);
    // SAFETY: slices of these lengths
    let code = unsafe {
        raw::rebatelion_simulation(chart.as_ptr(), chart.len(), buffer.as_mut_ptr(), buffer.len(), &mut states, &mut rounds)
    };
    (code == 0).then_some(rounds)
}

pub fn property(chart: &[u8], sheet: &[u8]) -> Option<(u64, u64, u64)> {
    let (mut word, mut count, mut rounds) = (0, 0, 0);
    // SAFETY: slices of these lengths
    let code = unsafe {
        raw::rebatelion_property(chart.as_ptr(), chart.len(), sheet.as_ptr(), sheet.len(), &mut word, &mut count, &mut rounds)
    };
    (code == 0).then_some((word, count, rounds))
}

pub fn short_form(chart: &[u8], sheet: &[u8], name: u64, buffer: &mut [u8]) -> Option<u64> {
    let (c, s, b) = (chart.as_ptr(), sheet.as_ptr(), buffer.as_mut_ptr());
    let mut written = 0;
    // SAFETY: slices of these lengths
    let code = unsafe { raw::rebatelion_short_form(c, chart.len(), s, sheet.len(), name, b, buffer.len(), &mut written) };
    (code == 0).then_some(written)
}

pub fn compare(first: &[u8], second: &[u8], buffer: &mut [u8]) -> Option<(u64, u64)> {
    let (c, s, b) = (first.as_ptr(), second.as_ptr(), buffer.as_mut_ptr());
    let (mut written, mut rounds) = (0, 0);
    // SAFETY: slices of these lengths
    let code = unsafe { raw::rebatelion_compare(c, first.len(), s, second.len(), b, buffer.len(), &mut written, &mut rounds) };
    (code == 0).then_some((written, rounds))
}

pub fn reasons(chart: &[u8], buffer: &mut [u8]) -> Option<u64> {
    let mut written = 0;
    // SAFETY: slices of these lengths
    let code = unsafe { raw::rebatelion_reasons(chart.as_ptr(), chart.len(), buffer.as_mut_ptr(), buffer.len(), &mut written) };
    (code == 0).then_some(written)
}

pub fn check_reasons(chart: &[u8], list: &[u8]) -> Option<u64> {
    let mut lines = 0;
    // SAFETY: slices of these lengths
    let code = unsafe { raw::rebatelion_check_reasons(chart.as_ptr(), chart.len(), list.as_ptr(), list.len(), &mut lines) };
    (code == 0).then_some(lines)
}

pub fn both_solutions(chart: &[u8], sheet: &[u8]) -> Option<[(u64, u64, u64); 2]> {
    let (c, s) = (chart.as_ptr(), sheet.as_ptr());
    let (mut least, mut greatest) = ([0; 3], [0; 3]);
    // SAFETY: slices of these lengths, and arrays of three
    let code = unsafe { raw::rebatelion_both_solutions(c, chart.len(), s, sheet.len(), &mut least, &mut greatest) };
    (code == 0).then_some([least, greatest].map(|[word, count, rounds]| (word, count, rounds)))
}

pub fn equal_rows(chart: &[u8]) -> Option<([u64; 64], u64)> {
    let (mut rows, mut states) = ([0; 64], 0);
    // SAFETY: a slice of this length, and an array of 64
    let code = unsafe { raw::rebatelion_equal_rows(chart.as_ptr(), chart.len(), &mut rows, &mut states) };
    (code == 0).then_some((rows, states))
}

pub fn equal_pairs(chart: &[u8]) -> Option<u64> {
    let mut pairs = 0;
    // SAFETY: a slice of this length
    let code = unsafe { raw::rebatelion_equal_pairs(chart.as_ptr(), chart.len(), &mut pairs) };
    (code == 0).then_some(pairs)
}
