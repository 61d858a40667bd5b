//! Compares the port's check of set-ups with what the published Rust stores.

pub mod asked;
pub mod expected;
pub mod inputs;
pub mod list;
pub mod numbers;
pub mod port;
pub mod recorded;
pub mod tally;

use std::path::PathBuf;

use port::Port;
use tally::Tally;

/// A set-up that both take.
const GOOD_LINE: &str = "1 44100 2 3 0 0 4 0 0 1 1 0 0";

/// True if nothing is left unexplained; `program` is the port's `setup_oracle`.
pub fn compare(program: PathBuf) -> bool {
    let port = Port(program);
    let mut tally = Tally::default();
    let mut new = |name: &str, units| tally.compare(name, &port, inputs::new(units));
    new("new chip, 1 to 15 slots: every format, width and flag", inputs::every_enum());
    new("new chip, 1 to 15 slots: masks and fills", inputs::masks_and_fills());
    new("new chip, 1 to 15 slots: rates around each limit", inputs::rates_of_units());
    new("new chip, 1 to 15 slots: random", inputs::random(120_000));
    new("new chip, 0 slots, 16 and more", inputs::odd_counts());
    let old = inputs::old(inputs::old_pairs(&inputs::rates()));
    tally.compare("old chip: every pair of units, both formats, some rates", &port, old);
    tally.refuse(&port, GOOD_LINE, inputs::bad_lines());
    tally.report()
}
