//! How the archive's time grows, in microseconds.

use crate::{archive, cases, time};
use std::hint::black_box;

/// The rounds and the time of a question about a chart.
fn timed(call: fn(&[u8], &mut [u8]) -> Option<u64>, chart: &[u8]) -> (u64, f64) {
    let mut buffer = [0; 4096];
    let rounds = call(chart, &mut buffer).expect("a good chart");
    let [took] = time([&mut || {
        black_box(call(black_box(chart), &mut buffer));
    }]);
    (rounds, took * 1e6)
}

/// With the states and with the triples of drawn charts.
pub fn drawn() {
    println!(
        "\nHow the archive's time grows, in microseconds: n states, 2 actions, t triples, drawn; a property of 200 nodes.\n"
    );
    println!("|   n |     t |      marks | simulation |   property |");
    println!("|---|---|---|---|---|");
    let sheet = cases::drawn_sheet(2);
    for (n, t) in [(8, 32), (16, 64), (32, 128), (64, 256), (64, 0), (64, 64), (64, 128), (64, 512), (64, 1024)] {
        let chart = cases::drawn(n, 2, t);
        let ((_, marks), (_, simulation)) = (timed(archive::marks, &chart), timed(archive::simulation, &chart));
        let [property] = time([&mut || {
            black_box(archive::property(black_box(&chart), black_box(&sheet)));
        }]);
        println!("| {n:>3} | {t:>5} | {marks:>10.2} | {simulation:>10.2} | {:>10.2} |", property * 1e6);
    }
}

/// What grows, by name: the states of chains, and their rounds with them; the triples of drawn charts; the rounds of simulation of two
/// rings, which are the least common multiple of the two, while the states stay 64.
fn growing() -> Vec<(String, Vec<u8>)> {
    let chains = [8, 16, 32, 64].map(|n| (format!("chain of {n}"), cases::chain(n)));
    let drawn = [128, 256, 512, 1024].map(|t| (format!("64 states, 32 actions, {t} triples"), cases::drawn(64, 32, t)));
    let rings = [(32, 32), (16, 48), (24, 40), (28, 36), (30, 34), (31, 33)];
    let rings = rings.map(|(a, b)| (format!("rings of {a} and {b}"), cases::two_rings(a, b)));
    chains.into_iter().chain(drawn).chain(rings).collect()
}

/// Marks and simulation, with their rounds.
pub fn by_states_triples_and_rounds() {
    println!("\nHow marks and simulation grow with the states, with the triples and with the rounds, in microseconds.\n");
    println!("| {:<34} | rounds |      marks | rounds | simulation |", "case");
    println!("|---|---|---|---|---|");
    for (case, chart) in growing() {
        let ((split, marks), (fell, simulation)) = (timed(archive::marks, &chart), timed(archive::simulation, &chart));
        println!("| {case:<34} | {split:>6} | {marks:>10.2} | {fell:>6} | {simulation:>10.2} |");
    }
}
