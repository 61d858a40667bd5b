//! Compares the port with the published Rust on every group of inputs.

mod chips;
mod exact;
mod inputs;
mod judge;
mod orders;
mod proved;
mod published;
mod setups;
mod tally;

use std::{env, path::PathBuf, process::ExitCode};

use tally::Tally;

fn main() -> ExitCode {
    published::hush();
    let mut tally = Tally::default();
    for bits in inputs::WIDTHS {
        let name = format!("every rate to {} at {bits} bits, stereo", inputs::LAST_RATE);
        tally.compare(&name, || inputs::sweep(bits));
    }
    tally.compare("every count of slots and width at some rates", inputs::grid);
    tally.compare("boundary values", || inputs::boundaries().into_iter());
    tally.compare("random rates", || inputs::random_flat(1_000_000));
    tally.compare("random lengths of the rate", || inputs::random_lengths(3_000_000));
    splits(&mut tally);
    within(&mut tally);
    let explained = tally.report();
    let mut programs = env::args_os().skip(1);
    let set_ups_explained =
        setups::compare(programs.next().expect("the path of setup_oracle").into());
    let chip_oracle: PathBuf = programs.next().expect("the path of chip_oracle").into();
    let calls_explained = chips::compare(chip_oracle.clone());
    let orders_explained = orders::compare(chip_oracle);
    print_skipped();
    if explained && set_ups_explained && calls_explained && orders_explained {
        ExitCode::SUCCESS
    } else {
        ExitCode::FAILURE
    }
}

/// Every pair up to the new chip's largest denominator, reached by a rate or not.
fn splits(tally: &mut Tally) {
    for denominator in 0..=published::Chip::New.max() {
        for numerator in 0..=denominator {
            tally.pair([denominator, numerator]);
        }
    }
}

/// The published Rust has no bound on the integer part, so the port's is held to its meaning.
fn within(tally: &mut Tally) {
    for (least, most) in [(1, 255), (2, 255), (0, u32::MAX), (255, 1)] {
        for part in (0..=600).chain([65_535, 65_536, u32::MAX]) {
            let refusal = proved::within(part, least, most);
            let meant = if least <= part && part <= most { 0 } else { proved::CLOCK_OUT_OF_REACH };
            tally.hold(refusal == meant, || format!("within {part} {least} {most}: {refusal}"));
        }
    }
}

fn print_skipped() {
    println!("\nNot compared:");
    println!("  a MAX other than 63 and 511: a constant in the Rust, one for each chip");
    println!("  splits on the old chip: the Rust has none there");
    println!("  splits of a numerator above the denominator: no search gives one");
    println!("  the bound of the integer part: the Rust has none; held to its meaning");
    println!("  the reach of a clock's fields other than the chip's own: constants in the Rust");
    println!("  standard set-ups, defaults and the functions that change one field of a set-up");
    println!("  rx_start at length 0: the Rust subtracts 1 from it");
    println!("  an allowance of 65,535 that is used up: more notes than are kept");
    println!("  write_words and read_words: in orders each is a start and a wait");
    println!("  widths and values after a reset of the registers, and puts of one write as one");
    println!("seed of the random inputs: {:#x}", inputs::SEED);
}
