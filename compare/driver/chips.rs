//! Compares what each register function of both chips does with what the published Rust's does, in order.

pub mod asked;
pub mod block;
pub mod expected;
mod inputs;
pub mod list;
mod rust;
mod tally;
mod widths;

use std::path::PathBuf;

use crate::{published::Chip, setups::port::Port};
use tally::Tally;

/// A call that both make.
const GOOD_LINE: &str = "1 tx_stop 0 0 0 0 0 0";

/// True if nothing is left unexplained; `program` is the port's `chip_oracle`.
pub fn compare(program: PathBuf) -> bool {
    let port = Port(program);
    let mut tally = Tally::default();
    for chip in Chip::BOTH {
        for calls in inputs::groups(chip) {
            tally.compare(&port, calls);
        }
    }
    tally.refuse(&port, GOOD_LINE, inputs::bad_lines());
    tally.report()
}
