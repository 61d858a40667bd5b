//! Holds one answer of the port against the published Rust's, and says what a difference is.

use crate::{
    exact::{CUT, Search, WHOLE},
    proved,
    published::{self, Chip, Input},
};

/// What came of one input.
pub enum Verdict {
    Agreed([u32; 4]),
    /// The Rust cut its products to 32 bits and took another pair.
    Cut {
        rust: [u32; 4],
        port: [u32; 4],
    },
    /// The Rust with overflow checks panics and the port refuses; holds what the Rust without
    /// overflow checks gives, or nothing if that panics too.
    Refused(Option<[u32; 4]>),
    Unexplained(String),
}

/// What came of one split, on the new chip.
pub enum SplitVerdict {
    Agreed,
    /// The Rust divides by zero and the port refuses.
    ByZero,
    Unexplained(String),
}

pub fn dividers(chip: Chip, input: Input) -> Verdict {
    let rust = chip.checked(input);
    let port = proved::clock_dividers(input.rate, input.channels, input.bits, chip.max());
    match (rust, port) {
        (None, Err(proved::RATE_OUT_OF_RANGE)) => Verdict::Refused(chip.unchecked(input)),
        (Some(rust), _) if chip.unchecked(input) != Some(rust) => {
            Verdict::Unexplained(format!("the two builds of the Rust differ, checked {rust:?}"))
        }
        (Some(rust), Ok(port)) if rust == port => Verdict::Agreed(rust),
        (Some(rust), Ok(port)) if is_cut(chip, input, rust, port) => Verdict::Cut { rust, port },
        (rust, port) => Verdict::Unexplained(format!("the Rust {rust:?}, the port {port:?}")),
    }
}

/// Whether the pairs differ by nothing but the cut of the Rust's products.
fn is_cut(chip: Chip, input: Input, rust: [u32; 4], port: [u32; 4]) -> bool {
    let search = Search::new(input, chip.max());
    rust[..2] == port[..2]
        && search.passes_32_bits()
        && search.pair(CUT) == pair(rust)
        && search.pair(WHOLE) == pair(port)
        && search.true_miss(pair(port)) <= search.true_miss(pair(rust))
}

/// Denominator and numerator.
pub fn pair(numbers: [u32; 4]) -> [u32; 2] {
    [numbers[2], numbers[3]]
}

pub fn split(pair: [u32; 2]) -> SplitVerdict {
    let rust = published::split(pair);
    let port = proved::split(pair[0], pair[1]);
    match (rust, port) {
        (Some(rust), Ok(port)) if rust == port => SplitVerdict::Agreed,
        (None, Err(proved::CLOCK_OUT_OF_REACH)) if pair[0] == pair[1] => SplitVerdict::ByZero,
        (rust, port) => SplitVerdict::Unexplained(format!("the Rust {rust:?}, the port {port:?}")),
    }
}
