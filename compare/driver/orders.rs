//! Compares whole orders of calls on the units of an opening with what the published Rust's units do.

mod asked;
mod expected;
mod inputs;
pub mod list;
mod rust;
mod tally;

use std::path::PathBuf;

use crate::{published::Chip, setups::port::Port};
use tally::Tally;

/// So many orders of each chip.
const ORDERS: usize = 1_000;

/// An opening and a call alone that both make.
const GOOD_CALL: &str = "1 tx_stop 0 0 0 0 0 0";
const GOOD_OPENING: &str = "open 0 4096 4096 0 0 44100 0 0 0 0 0 0 0 0 0";

/// Lines that are none of an order.
const BAD_LINES: [&str; 12] = [
    "tx",
    "tx start 4",
    "tx start 4 65536",
    "tx start 4294967296 0",
    "tx wait",
    "tx stop 0",
    "tx tx_stop",
    "rx abandon",
    "both wait 0",
    "rx listen 16",
    "rx apply_config 0 0 0",
    "0 tx_stop 0 0 0 0 0 0",
];

const BAD_OPENINGS: [&str; 8] = [
    "open",
    "open 2 4096 4096 0 0 44100 0 0 0 0 0 0 0 0 0",
    "open 0 65536 4096 0 0 44100 0 0 0 0 0 0 0 0 0",
    "open 0 4096 4096 1 0 44100 0 0 0 0 0 0 0 0 0",
    "open 0 4096 4096 0 1 1 1 2 44100 0 0 0 0 0 0 0 0 0",
    "open 0 4096 4096 0 0 44100 0 0 0 0 0 0 0 0",
    "open 1 4096 4096 0 0 44100 0 0 0 0 0 0 0 0 0",
    "open 0 4096 4096 4294967295 0 44100 0 0 0 0 0 0 0 0 0",
];

/// True if nothing is left unexplained; `program` is the port's `chip_oracle`.
pub fn compare(program: PathBuf) -> bool {
    let port = Port(program);
    let mut tally = Tally::default();
    for chip in Chip::BOTH {
        tally.compare(&port, chip, inputs::orders(chip, ORDERS));
    }
    tally.refuse(&port, GOOD_OPENING, &BAD_LINES);
    tally.refuse(&port, GOOD_CALL, &BAD_OPENINGS);
    tally.report()
}
