//! The published Rust: one build for each chip with overflow checks and one without.

use std::{cell::Cell, panic};

/// What is asked of both sides.
#[derive(Clone, Copy, Debug, PartialEq, Eq, PartialOrd, Ord)]
pub struct Input {
    pub rate: u32,
    pub channels: u8,
    pub bits: u8,
}

#[derive(Clone, Copy, Debug, PartialEq, Eq, PartialOrd, Ord)]
pub enum Chip {
    Old,
    New,
}

impl Chip {
    pub const BOTH: [Chip; 2] = [Chip::Old, Chip::New];

    /// The largest denominator, a constant of each build.
    pub fn max(self) -> u32 {
        match self {
            Chip::Old => old_checked::Window::MAX,
            Chip::New => new_checked::Window::MAX,
        }
    }

    /// The dividers from the build with overflow checks; nothing if it panics.
    pub fn checked(self, input: Input) -> Option<[u32; 4]> {
        let Input { rate, channels, bits } = input;
        caught(|| match self {
            Chip::Old => old_checked::Window::clock_dividers(rate, channels, bits),
            Chip::New => new_checked::Window::clock_dividers(rate, channels, bits),
        })
    }

    /// The same from the build without overflow checks.
    pub fn unchecked(self, input: Input) -> Option<[u32; 4]> {
        let Input { rate, channels, bits } = input;
        caught(|| match self {
            Chip::Old => old_unchecked::Window::clock_dividers(rate, channels, bits),
            Chip::New => new_unchecked::Window::clock_dividers(rate, channels, bits),
        })
    }
}

/// The split of a pair, which only the new chip has; nothing if it panics.
pub fn split(pair: [u32; 2]) -> Option<[u32; 4]> {
    caught(|| new_checked::Window::split(pair[0], pair[1]))
}

thread_local! {
    static ASKING: Cell<bool> = const { Cell::new(false) };
}

/// Keeps the panics of the published Rust off the screen, and no others.
pub fn hush() {
    let usual = panic::take_hook();
    panic::set_hook(Box::new(move |what| {
        if !ASKING.get() {
            usual(what);
        }
    }));
}

/// What a question gives; nothing if it panics.
pub fn caught<T>(ask: impl FnOnce() -> T + panic::UnwindSafe) -> Option<T> {
    ASKING.set(true);
    let answer = panic::catch_unwind(ask).ok();
    ASKING.set(false);
    answer
}
