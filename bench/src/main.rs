//! Times the archive's calls beside Rust of the same shape and beside the fastest Rust that we know, in one run, and properties also
//! beside Rust without a table of the steps. Each time is the least processor time of several samples, taken in turn; the buffers
//! are not cleared between calls. Ends with a line for each ratio above what is asked, and with status 1 where there is one.
//!
//!     bench                all of that
//!     bench --growth       also how marks and simulation grow with the states, with the triples and with the rounds
//!     bench --count FILE   the tables alone, with instructions in place of time (bench/count)

mod archive;
mod both;
mod cases;
mod compare;
mod count;
mod equal;
mod growth;
mod passes;
mod read;
mod reasons;
mod same_shape;
mod short_form;
mod words;

use cases::Asked;
use std::hint::black_box;
use std::process::ExitCode;

const SAMPLES: usize = 15;
const SAMPLE_SECONDS: f64 = 0.004;

/// The processor time of this thread so far, in seconds: what else the machine does counts little.
fn now() -> f64 {
    extern "C" {
        fn clock_gettime(clock: i32, out: &mut [i64; 2]) -> i32;
    }
    const CLOCK_THREAD_CPUTIME_ID: i32 = 3;
    let mut time = [0; 2];
    // SAFETY: a timespec is two 64-bit numbers on 64-bit Linux
    let failed = unsafe { clock_gettime(CLOCK_THREAD_CPUTIME_ID, &mut time) };
    assert!(failed == 0, "no clock");
    time[0] as f64 + time[1] as f64 * 1e-9
}

/// Seconds a call of each, the least of the samples; where instructions are counted, each as if it took a nanosecond.
fn time<const N: usize>(mut calls: [&mut dyn FnMut(); N]) -> [f64; N] {
    if let Some(told) = count::told() {
        return calls.map(|call| count::instructions(told, call) as f64 * 1e-9);
    }
    let mut repeats = [1usize; N];
    for (call, repeat) in calls.iter_mut().zip(&mut repeats) {
        loop {
            let start = now();
            for _ in 0..*repeat {
                call();
            }
            let took = now() - start;
            if took >= SAMPLE_SECONDS {
                break;
            }
            *repeat = (*repeat * 2).max((*repeat as f64 * SAMPLE_SECONDS / took.max(1e-9)).min(1e7) as usize);
        }
    }
    let mut least = [f64::INFINITY; N];
    for _ in 0..SAMPLES {
        for i in 0..N {
            let start = now();
            for _ in 0..repeats[i] {
                calls[i]();
            }
            least[i] = least[i].min((now() - start) / repeats[i] as f64);
        }
    }
    least
}

/// Keeps a line for a ratio that is above what is asked.
fn hold(above: &mut Vec<String>, question: &str, case: &str, beside: &str, ratio: f64, most: f64) {
    // as it is printed, so that no line says 2.00 where 2 is asked
    if (ratio * 100.0).round() > most * 100.0 {
        above.push(format!("above what is asked: {question}, {case}: archive/{beside} {ratio:.2}, asked {most}"));
    }
}

/// Prints the times of a case, and keeps a line for each ratio that is above what is asked.
fn row(above: &mut Vec<String>, asked: &Asked, case: &str, rounds: &str, [archive, same, words]: [f64; 3]) {
    let us = 1e6;
    let question = asked.question;
    println!(
        "| {question:<11} | {case:<49} | {rounds:>6} | {:>10.2} | {:>10.2} | {:>8.2} | {:>12.2} | {:>13.2} |",
        archive * us,
        same * us,
        words * us,
        archive / same,
        archive / words
    );
    hold(above, question, case, "same", archive / same, asked.same);
    if let Some(most) = asked.words {
        hold(above, question, case, "words", archive / words, most);
    }
}

/// The answer of calls that write to a buffer of this length, and the times of each. They must agree first.
fn timed<const N: usize, A: PartialEq + Copy>(length: usize, calls: [impl Fn(&mut [u8]) -> Option<A>; N]) -> (A, [f64; N]) {
    let mut buffers = [(); N].map(|_| vec![9; length]);
    let answers: Vec<A> = calls.iter().zip(&mut buffers).map(|(call, b)| call(b).expect("a good input")).collect();
    assert!(answers.iter().all(|a| *a == answers[0]) && buffers.iter().all(|b| *b == buffers[0]), "they differ");
    let mut again: Vec<_> = calls.iter().zip(&mut buffers).map(|(call, b)| move || _ = black_box(call(b))).collect();
    let again: Vec<&mut dyn FnMut()> = again.iter_mut().map(|call| call as _).collect();
    (answers[0], time(again.try_into().ok().expect("one for each")))
}

/// A question that fills a buffer from a chart.
type OfChart = fn(&[u8], &mut [u8]) -> Option<u64>;

/// The answer, and the times of archive, same shape and words, in a buffer of this length.
fn of_chart(chart: &[u8], length: usize, calls: [OfChart; 3]) -> (u64, [f64; 3]) {
    timed(length, calls.map(|call| move |b: &mut [u8]| call(black_box(chart), b)))
}

/// The word, the number of states in it and the rounds.
type Solve = fn(&[u8], &[u8]) -> Option<(u64, u64, u64)>;

/// The rounds, and the times.
fn property<const N: usize>(chart: &[u8], sheet: &[u8], calls: [Solve; N]) -> (u64, [f64; N]) {
    let (answer, times) = timed(0, calls.map(|call| move |_: &mut [u8]| call(black_box(chart), black_box(sheet))));
    (answer.2, times)
}

/// Both solutions, the least first.
type SolveBoth = fn(&[u8], &[u8]) -> Option<[(u64, u64, u64); 2]>;

/// The rounds of the two, and the times.
fn both_solutions(chart: &[u8], sheet: &[u8]) -> (String, [f64; 3]) {
    let calls: [SolveBoth; 3] = [archive::both_solutions, both::same_shape, both::words];
    let (answer, times) = timed(0, calls.map(|call| move |_: &mut [u8]| call(black_box(chart), black_box(sheet))));
    let [least, greatest] = answer.map(|(_, _, rounds)| rounds);
    (format!("{least}, {greatest}"), times)
}

/// Names 2 and 3 write the most.
fn short_form(chart: &[u8], sheet: &[u8], name: u64) -> [f64; 3] {
    let calls = [archive::short_form, short_form::same_shape, short_form::one_pass];
    timed(512, calls.map(|call| move |b: &mut [u8]| call(black_box(chart), black_box(sheet), black_box(name), b))).1
}

/// The rounds, and the times.
fn compare(first: &[u8], second: &[u8]) -> (u64, [f64; 3]) {
    let calls = [archive::compare, compare::same_shape, compare::words];
    let (answer, times) = timed(67, calls.map(|call| move |b: &mut [u8]| call(black_box(first), black_box(second), b)));
    (answer.1, times)
}

/// Our list.
fn our_list(chart: &[u8]) -> Vec<u8> {
    let mut room = vec![9; reasons::LONGEST];
    let length = archive::reasons(chart, &mut room).expect("a good chart");
    room.truncate(length as usize);
    room
}

fn check(chart: &[u8], list: &[u8]) -> [f64; 3] {
    let calls = [archive::check_reasons, reasons::check_same_shape, reasons::check_words];
    let (lines, times) = timed(0, calls.map(|call| move |_: &mut [u8]| call(black_box(chart), black_box(list))));
    assert!(lines == list.len() as u64 / 5, "not all of the list");
    times
}

const MARKS: [OfChart; 3] = [archive::marks, same_shape::marks, words::marks];
const SIMULATION: [OfChart; 3] = [archive::simulation, same_shape::simulation, words::simulation];
const PROPERTY: [Solve; 3] = [archive::property, same_shape::property, words::property];
const REASONS: [OfChart; 3] = [archive::reasons, reasons::same_shape, reasons::words];

/// The charts that are taken whole, by name.
fn charts() -> [(&'static str, Vec<u8>); 7] {
    [
        ("E", cases::e()),
        ("64 states, 32 actions, 1,024 triples, drawn", cases::drawn(64, 32, 1024)),
        ("64 states, 2 actions, 1,024 triples, drawn", cases::drawn(64, 2, 1024)),
        ("64 states, 4 actions, 1,008 triples, nearly alike", cases::nearly_alike()),
        ("chain of 64", cases::chain(64)),
        ("ring of 64", cases::ring(64)),
        (RINGS, cases::two_rings(31, 33)),
    ]
}

const RINGS: &str = "rings of 31 and 33";

/// Marks and simulation of each chart.
fn matrices(above: &mut Vec<String>) {
    let charts = charts();
    for (case, chart) in &charts {
        let (rounds, times) = of_chart(chart, 4096, MARKS);
        row(above, &cases::MARKS, case, &rounds.to_string(), times);
    }
    for (case, chart) in &charts {
        let (rounds, times) = of_chart(chart, 4096, SIMULATION);
        let asked = if *case == RINGS { cases::SIMULATION_OF_RINGS } else { cases::SIMULATION };
        row(above, &asked, case, &rounds.to_string(), times);
    }
}

/// The times of a question that needs no buffer.
fn without_buffer<A: PartialEq + Copy>(chart: &[u8], calls: [fn(&[u8]) -> Option<A>; 3]) -> [f64; 3] {
    timed(0, calls.map(|call| move |_: &mut [u8]| call(black_box(chart)))).1
}

/// Equal rows and equal pairs of each chart.
fn equal(above: &mut Vec<String>) {
    let charts = charts();
    for (case, chart) in &charts {
        let times = without_buffer(chart, [archive::equal_rows, same_shape::equal_rows, equal::rows]);
        row(above, &cases::EQUAL_ROWS, case, &rounds(chart), times);
    }
    for (case, chart) in &charts {
        let times = without_buffer(chart, [archive::equal_pairs, same_shape::equal_pairs, equal::pairs]);
        row(above, &cases::EQUAL_PAIRS, case, &rounds(chart), times);
    }
}

/// The properties, by name: a chart and a sheet.
fn properties() -> [(&'static str, Vec<u8>, Vec<u8>); 6] {
    let drawn = cases::drawn(64, 32, 1024);
    [
        ("E, its sheet", cases::e(), cases::e_sheet()),
        ("1,024 triples, 5 nodes", drawn.clone(), cases::reach_rest()),
        ("1,024 triples, 200 nodes drawn", drawn.clone(), cases::drawn_sheet(32)),
        ("1,024 triples, 200 nodes nested", drawn, cases::nested_sheet()),
        ("chain of 64, 5 nodes", cases::chain(64), cases::reach_rest()),
        ("chain of 64, 200 nodes", cases::chain(64), cases::long_reach_rest()),
    ]
}

/// Properties, both solutions of the same sheets, and short forms.
fn sheets(above: &mut Vec<String>) {
    for (case, chart, sheet) in properties() {
        let (rounds, times) = property(&chart, &sheet, PROPERTY);
        row(above, &cases::PROPERTY, case, &rounds.to_string(), times);
    }
    for (case, chart, sheet) in properties() {
        let (rounds, times) = both_solutions(&chart, &sheet);
        row(above, &cases::BOTH, case, &rounds, times);
    }
    let drawn = cases::drawn(64, 32, 1024);
    for (case, chart, sheet, name) in [
        ("E, its sheet, name 2", cases::e(), cases::e_sheet(), 2),
        ("E, its sheet, name 3", cases::e(), cases::e_sheet(), 3),
        ("E, 194 nodes nested, name 2", cases::e(), cases::closed_sheet(194), 2),
        ("E, 194 nodes nested, name 3", cases::e(), cases::closed_sheet(194), 3),
        ("1,024 triples, 194 nodes nested, name 2", drawn, cases::closed_sheet(194), 2),
    ] {
        row(above, &cases::SHORT_FORM, case, "-", short_form(&chart, &sheet, name));
    }
}

/// Two charts of 32 states and 512 triples, or smaller.
fn pairs(above: &mut Vec<String>) {
    let (many, few) = (|seed| cases::drawn_from(seed, 32, 32, 512), |seed| cases::drawn_from(seed, 32, 2, 512));
    for (case, first, second) in [
        ("E, itself", cases::e(), cases::e()),
        ("32 states, 32 actions, 512 triples, and others", many(1), many(2)),
        ("32 states, 32 actions, 512 triples, itself", many(1), many(1)),
        ("32 states, 2 actions, 512 triples, and others", few(1), few(2)),
    ] {
        let (rounds, times) = compare(&first, &second);
        row(above, &cases::COMPARE, case, &rounds.to_string(), times);
    }
}

/// The rounds of a chart's marks.
fn rounds(chart: &[u8]) -> String {
    words::marks(chart, &mut [0; 4096]).expect("a good chart").to_string()
}

/// The reasons of each chart in a buffer for any list; and in one that has room for this list alone, where some states are equal: then
/// the archive has to work elsewhere.
fn lists(above: &mut Vec<String>) {
    for (case, chart) in &charts() {
        row(above, &cases::REASONS, case, &rounds(chart), of_chart(chart, reasons::LONGEST, REASONS).1);
    }
    for (case, chart) in [
        ("ring of 32 classes of 2, no room to spare", cases::ring_of_classes(32)),
        ("ring of 4 classes of 16, no room to spare", cases::ring_of_classes(4)),
    ] {
        let length = our_list(&chart).len();
        assert!(length < reasons::LONGEST, "no equal states");
        row(above, &cases::REASONS, case, &rounds(&chart), of_chart(&chart, length, REASONS).1);
    }
}

/// The check of these lists, and of some turned round, which are mostly of side 1.
fn checks(above: &mut Vec<String>) {
    for (case, chart) in &charts() {
        row(above, &cases::CHECK, case, &rounds(chart), check(chart, &our_list(chart)));
    }
    for (case, chart) in
        [("64 states, 32 actions, 1,024 triples, side 1", cases::drawn(64, 32, 1024)), ("ring of 64, side 1", cases::ring(64))]
    {
        let list = reasons::turned_round(&our_list(&chart));
        row(above, &cases::CHECK, case, &rounds(&chart), check(&chart, &list));
    }
}

/// The table of all cases; what is above what is asked.
fn beside_rust() -> Vec<String> {
    let mut above = Vec::new();
    match count::told() {
        None => println!("Times in microseconds, the least of {SAMPLES} samples.\n"),
        Some(_) => println!("Instructions on x86-64, in thousands.\n"),
    }
    let (question, case) = ("question", "case");
    println!("| {question:<11} | {case:<49} | rounds |    archive | same shape |    words | archive/same | archive/words |");
    println!("|---|---|---|---|---|---|---|---|");
    matrices(&mut above);
    equal(&mut above);
    sheets(&mut above);
    pairs(&mut above);
    lists(&mut above);
    checks(&mut above);
    above
}

/// The table of properties beside Rust that makes no table of the steps: what a small chart pays for it. As much is asked of it as of the
/// same shape, which it was once.
fn beside_passes(above: &mut Vec<String>) {
    println!("\nA property beside Rust that makes no table of the steps: a pass over the triples for every diamond and box.\n");
    println!("| {:<31} | rounds |    archive |     passes | archive/passes |", "case");
    println!("|---|---|---|---|---|");
    for (case, chart, sheet) in properties() {
        let (rounds, [archive, passes]) = property(&chart, &sheet, [archive::property, passes::property]);
        let ratio = archive / passes;
        println!("| {case:<31} | {rounds:>6} | {:>10.2} | {:>10.2} | {ratio:>14.2} |", archive * 1e6, passes * 1e6);
        hold(above, cases::PROPERTY.question, case, "passes", ratio, cases::PROPERTY.same);
    }
}

fn main() -> ExitCode {
    let arguments: Vec<String> = std::env::args().skip(1).collect();
    let with_growth = match arguments.iter().map(String::as_str).collect::<Vec<_>>()[..] {
        [] => false,
        ["--growth"] => true,
        ["--count", told] => {
            count::begin(told);
            beside_passes(&mut beside_rust());
            return ExitCode::SUCCESS;
        }
        _ => panic!("bench [--growth | --count FILE]"),
    };
    let mut above = beside_rust();
    beside_passes(&mut above);
    growth::drawn();
    if with_growth {
        growth::by_states_triples_and_rounds();
    }
    println!();
    for line in &above {
        println!("{line}");
    }
    ExitCode::from(!above.is_empty() as u8)
}
