//! Times the proved dividers, through C, against the published Rust without overflow checks.

#[path = "../compare/driver/inputs.rs"]
#[allow(dead_code)]
mod inputs;
#[path = "../compare/driver/proved.rs"]
#[allow(dead_code)]
mod proved;
#[path = "../compare/driver/published.rs"]
#[allow(dead_code)]
mod published;

use std::{hint::black_box, time::Instant};

use inputs::{Random, SEED};
use published::Chip;

const CHANNELS: u8 = 2;
const BITS: u8 = 16;

/// The two sides take turns this often; each keeps its fastest turn, the one least disturbed.
const TURNS: usize = 61;
const NANOSECONDS_A_TURN: u128 = 2_000_000;

fn main() {
    println!("| case | MAX | Rust, ns a call | proved, ns a call | ratio |");
    println!("|---|---|---|---|---|");
    for chip in Chip::BOTH {
        for (name, rates) in cases() {
            let (rust, port) = fastest(chip, &rates);
            println!("| {name} | {} | {rust:.1} | {port:.1} | {:.2} |", chip.max(), port / rust);
        }
    }
}

/// Near rates end the search early or make none; far ones go through every denominator.
fn cases() -> Vec<(&'static str, Vec<u32>)> {
    vec![
        ("near: 25,000, no rest", vec![25_000]),
        ("near: 41,681, rest rounded up", vec![41_681]),
        ("near: 8,000, ends at 8", vec![8_000]),
        ("near: 32,000, ends at 32", vec![32_000]),
        ("near: 48,000, ends at 48", vec![48_000]),
        ("far: 11,027", vec![11_027]),
        ("far: 44,101", vec![44_101]),
        ("random: 256 rates from 2,442 to 629,976", random(256)),
    ]
}

fn random(count: usize) -> Vec<u32> {
    let mut random = Random(SEED);
    (0..count).map(|_| 2_442 + random.below(629_976 - 2_442 + 1) as u32).collect()
}

/// Nanoseconds a call of the Rust and of the port.
fn fastest(chip: Chip, rates: &[u32]) -> (f64, f64) {
    let rounds = rounds_for(chip, rates);
    let mut best = (f64::MAX, f64::MAX);
    for _ in 0..TURNS {
        best.0 = best.0.min(rust_turn(chip, rates, rounds));
        best.1 = best.1.min(port_turn(chip, rates, rounds));
    }
    best
}

/// How often to go through the rates for a turn to take long enough.
fn rounds_for(chip: Chip, rates: &[u32]) -> usize {
    let mut rounds = 1;
    loop {
        let start = Instant::now();
        rust_turn(chip, rates, rounds);
        if start.elapsed().as_nanos() >= NANOSECONDS_A_TURN {
            return rounds;
        }
        rounds *= 2;
    }
}

/// The largest denominator is a constant of each build of the Rust.
fn rust_turn(chip: Chip, rates: &[u32], rounds: usize) -> f64 {
    match chip {
        Chip::Old => turn(rates, rounds, |rate| {
            let rate = old_unchecked::time::Rate::from_hz(rate);
            (old_unchecked::Window::NEW)(rate, black_box(CHANNELS), black_box(BITS))
        }),
        Chip::New => turn(rates, rounds, |rate| {
            let rate = new_unchecked::time::Rate::from_hz(rate);
            (new_unchecked::Window::NEW)(rate, black_box(CHANNELS), black_box(BITS))
        }),
    }
}

fn port_turn(chip: Chip, rates: &[u32], rounds: usize) -> f64 {
    let max = chip.max();
    turn(rates, rounds, |rate| {
        proved::clock_answer(rate, black_box(CHANNELS), black_box(BITS), black_box(max))
    })
}

/// Nanoseconds a call.
fn turn<T>(rates: &[u32], rounds: usize, call: impl Fn(u32) -> T) -> f64 {
    let start = Instant::now();
    for _ in 0..rounds {
        for &rate in rates {
            black_box(call(black_box(rate)));
        }
    }
    start.elapsed().as_nanos() as f64 / (rounds * rates.len()) as f64
}
