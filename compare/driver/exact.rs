//! The search for the pair once more, in 64 bits, with a chosen cut of its products. It judges a
//! disagreement: with no cut it must give the port's pair, with a cut to 32 bits the Rust's.

use crate::published::Input;

const SCLK: u64 = 160_000_000;

/// Keeps a product whole, or the 32 bits that the published Rust keeps.
pub const WHOLE: u64 = u64::MAX;
pub const CUT: u64 = u32::MAX as u64;

/// What the search works on; the input must have a rate that both sides take.
pub struct Search {
    mclk: u64,
    rest: u64,
    max: u64,
}

impl Search {
    pub fn new(input: Input, max: u32) -> Search {
        let multiple = if input.bits == 24 { 192 } else { 256 };
        let mclk = input.rate as u64 * multiple;
        Search { mclk, rest: SCLK % mclk, max: max as u64 }
    }

    /// The rest in ten-thousandths of the master clock.
    fn decimal(&self) -> u64 {
        self.rest * 10_000 / self.mclk
    }

    /// Whether there is a pair to search for: a rest, and one that is not rounded up.
    fn is_made(&self) -> bool {
        self.rest != 0 && self.decimal() <= 9_920
    }

    fn numerator(&self, denominator: u64) -> u64 {
        (denominator * self.decimal() + 5_000) / 10_000
    }

    /// How far a pair misses the rest, with each product cut to the bits of `keep`.
    fn miss(&self, denominator: u64, numerator: u64, keep: u64) -> u64 {
        (self.rest * denominator & keep).abs_diff(self.mclk * numerator & keep)
    }

    /// How far a pair of either side misses the rest.
    pub fn true_miss(&self, pair: [u32; 2]) -> u64 {
        self.miss(pair[0] as u64, pair[1] as u64, WHOLE)
    }

    /// The first pair of least miss.
    pub fn pair(&self, keep: u64) -> [u32; 2] {
        let (mut least, mut best) = (keep, [0, 0]);
        if !self.is_made() {
            return best;
        }
        for denominator in 2..=self.max {
            let numerator = self.numerator(denominator);
            let miss = self.miss(denominator, numerator, keep);
            if miss < least {
                (least, best) = (miss, [denominator as u32, numerator as u32]);
            }
        }
        best
    }

    /// Whether a product passes 32 bits at a denominator of the search.
    pub fn passes_32_bits(&self) -> bool {
        self.is_made()
            && (2..=self.max).any(|denominator| {
                self.rest * denominator > CUT || self.mclk * self.numerator(denominator) > CUT
            })
    }
}
