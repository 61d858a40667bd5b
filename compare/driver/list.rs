//! Writes the fixed lists: answers of the published Rust, one to a line. The port is not asked.
//! usage: list dividers|set-ups|answers|calls|call-answers

#[allow(dead_code)]
mod chips;
#[allow(dead_code)]
mod exact;
#[allow(dead_code)]
mod inputs;
#[allow(dead_code)]
mod orders;
#[allow(dead_code)]
mod published;
#[allow(dead_code)]
mod setups;

use std::{collections::HashSet, env};

use exact::{CUT, Search, WHOLE};
use inputs::{Random, SEED, WIDTHS, input, known_cut};
use published::{Chip, Input};

fn main() {
    published::hush();
    match env::args().nth(1).as_deref() {
        Some("dividers") => print_dividers(),
        Some("set-ups") => print_set_ups(),
        Some("answers") => print_answers(),
        Some("calls") => print_calls(),
        Some("call-answers") => print_call_answers(),
        _ => panic!("usage: list dividers|set-ups|answers|calls|call-answers"),
    }
}

fn print_set_ups() {
    println!("# seed of the random inputs: {SEED:#x}");
    for (set_up, _) in setups::list::lines() {
        println!("{set_up}");
    }
}

fn print_answers() {
    for (_, answer) in setups::list::lines() {
        println!("{answer}");
    }
}

fn print_calls() {
    println!("# seed of the random inputs: {SEED:#x}");
    for (call, _) in call_lines() {
        println!("{call}");
    }
}

fn print_call_answers() {
    for (_, answer) in call_lines() {
        println!("{answer}");
    }
}

/// Calls alone, and then orders.
fn call_lines() -> impl Iterator<Item = (String, String)> {
    chips::list::lines().into_iter().chain(orders::list::lines())
}

fn print_dividers() {
    println!("# seed of the random inputs: {SEED:#x}");
    let mut seen = HashSet::new();
    for asked in audio().into_iter().chain(cut()).chain(bounds()).chain(random(160)) {
        for chip in Chip::BOTH {
            let line = line(chip, asked);
            if seen.insert(line.clone()) {
                println!("{line}");
            }
        }
    }
}

fn audio() -> Vec<Input> {
    let rates = [
        8_000, 11_025, 12_000, 16_000, 22_050, 24_000, 32_000, 44_100, 48_000, 64_000, 88_200,
        96_000, 176_400, 192_000,
    ];
    rates.iter().flat_map(|&rate| WIDTHS.map(|bits| input(rate, 2, bits))).collect()
}

fn cut() -> Vec<Input> {
    let at = |bits| known_cut(Chip::New.max(), bits).iter().map(move |&rate| input(rate, 2, bits));
    at(16).chain(at(24)).collect()
}

fn bounds() -> Vec<Input> {
    let rates = [
        0,
        1,
        2,
        2_441,
        2_442,
        2_443,
        41_680,
        41_681,
        41_682,
        41_693,
        41_694,
        41_695,
        312_500,
        624_999,
        625_000,
        625_001,
        629_975,
        629_976,
        629_977,
        629_978,
        833_333,
        833_334,
        16_777_215,
        16_777_216,
        22_369_621,
        22_369_622,
        u32::MAX,
    ];
    // Slots and widths at their ends, and rates on either side of 2^32 / (slots * width).
    let others = [
        (44_100, 0, 16),
        (44_100, 1, 16),
        (44_100, 16, 32),
        (44_100, 255, 16),
        (48_000, 2, 0),
        (48_000, 2, 1),
        (48_000, 2, 255),
        (66_051, 255, 255),
        (66_052, 255, 255),
        (8_388_607, 16, 32),
        (8_388_608, 16, 32),
        (8_388_606, 4, 128),
        (4_294_967_295, 1, 1),
    ];
    let stereo = rates.into_iter().flat_map(|rate| [16, 24].map(|bits| input(rate, 2, bits)));
    stereo.chain(others.map(|(rate, channels, bits)| input(rate, channels, bits))).collect()
}

/// Mostly what a driver may ask for: up to 16 slots, a width of the formats.
fn random(count: usize) -> Vec<Input> {
    let mut random = Random(SEED);
    (0..count).map(|_| one(&mut random)).collect()
}

fn one(random: &mut Random) -> Input {
    let rate = random.rate(25);
    let any = random.below(8) == 0;
    let channels = if any { random.byte() } else { 1 + random.below(16) as u8 };
    let bits = if any { random.byte() } else { WIDTHS[random.below(4) as usize] };
    input(rate, channels, bits)
}

fn line(chip: Chip, asked: Input) -> String {
    let head = format!("{} {} {} {}", asked.rate, asked.channels, asked.bits, chip.max());
    let Some([integer, bit, denominator, numerator]) = chip.checked(asked) else {
        return format!("{head} panics");
    };
    let pair = [denominator, numerator];
    let kind = kind(chip, asked, pair);
    format!("{head} {kind} {integer} {bit} {denominator} {numerator} {}", split(chip, pair))
}

/// Whether the Rust's pair is the best one, or what the cut of its products made of it.
fn kind(chip: Chip, asked: Input, pair: [u32; 2]) -> &'static str {
    let search = Search::new(asked, chip.max());
    assert_eq!(search.pair(CUT), pair, "the Rust's search is not understood at {asked:?}");
    if search.pair(WHOLE) == pair { "same" } else { "cut" }
}

fn split(chip: Chip, pair: [u32; 2]) -> String {
    match chip {
        Chip::Old => "- - - -".to_string(),
        Chip::New => {
            let [x, y, z, yn1] = published::split(pair).expect("a split that divides by zero");
            format!("{x} {y} {z} {yn1}")
        }
    }
}
