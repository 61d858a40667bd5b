//! The inputs: sweeps, grids, boundary values and seeded random ones.

use crate::published::Input;

pub const SEED: u64 = 0x1a2b_3c4d_5e6f_7081;

pub const LAST_RATE: u32 = 900_000;
pub const WIDTHS: [u8; 4] = [8, 16, 24, 32];

/// Rates of audio, those at which the rest is rounded up (41,681 and 41,694 lie on either side of
/// it), and the first and last rates with an integer part from 1 to 255.
pub const RATES: [u32; 24] = [
    2_441, 2_442, 8_000, 11_025, 12_000, 16_000, 22_050, 24_000, 25_000, 32_000, 41_681, 41_694,
    44_100, 48_000, 64_000, 88_200, 96_000, 176_400, 192_000, 312_500, 625_000, 629_976, 629_977,
    833_333,
];

/// Rates known to be cut in stereo though their integer part is one that a divider takes. The
/// master clock is 192 times the rate at 24 bits and 256 times at the other widths.
const CUT_AT_256: [u32; 10] =
    [96421, 192842, 209192, 234102, 289263, 469295, 578524, 578526, 578527, 578528];
const CUT_AT_192: [u32; 9] =
    [192842, 278923, 312136, 385684, 625727, 771366, 771368, 771369, 771370];

pub fn known_cut(max: u32, bits: u8) -> &'static [u32] {
    match (max, bits) {
        (511, 24) => &CUT_AT_192,
        (511, _) => &CUT_AT_256,
        _ => &[],
    }
}

pub fn input(rate: u32, channels: u8, bits: u8) -> Input {
    Input { rate, channels, bits }
}

/// Every rate up to `LAST_RATE` in stereo.
pub fn sweep(bits: u8) -> impl Iterator<Item = Input> {
    (1..=LAST_RATE).map(move |rate| input(rate, 2, bits))
}

/// Every count of slots with every width, at a few rates.
pub fn grid() -> impl Iterator<Item = Input> {
    RATES.into_iter().flat_map(|rate| {
        (0..=255).flat_map(move |channels| (0..=255).map(move |bits| input(rate, channels, bits)))
    })
}

/// Both sides of every bound: of the rate alone, and of the product with slots and width.
pub fn boundaries() -> Vec<Input> {
    let mut all = Vec::new();
    for channels in [0, 1, 2, 3, 4, 8, 15, 16, 17, 127, 128, 254, 255] {
        for bits in [0, 1, 2, 7, 8, 9, 15, 16, 17, 23, 24, 25, 31, 32, 33, 127, 128, 254, 255] {
            for rate in edge_rates(channels, bits) {
                all.push(input(rate, channels, bits));
            }
        }
    }
    all.sort();
    all.dedup();
    all
}

fn edge_rates(channels: u8, bits: u8) -> Vec<u32> {
    let product = (channels as u64 * bits as u64).max(1);
    let over = 1u64 << 32;
    let mut edges = vec![0, over / 256, over / 192, over / product, over / 2, over];
    edges.extend([160_000_000 / 256, 160_000_000 / 192, 160_000_000]);
    edges.extend(RATES.map(u64::from));
    edges
        .into_iter()
        .flat_map(|edge| edge.saturating_sub(2)..=edge + 2)
        .filter_map(|rate| u32::try_from(rate).ok())
        .collect()
}

/// Seeded random inputs: every rate as likely as the next, which the port nearly always refuses.
pub fn random_flat(count: usize) -> impl Iterator<Item = Input> {
    let mut random = Random(SEED);
    (0..count).map(move |_| input(random.below(1 << 32) as u32, random.byte(), random.byte()))
}

/// Seeded random inputs: every length of the rate as likely as the next.
pub fn random_lengths(count: usize) -> impl Iterator<Item = Input> {
    let mut random = Random(!SEED);
    (0..count).map(move |_| {
        let rate = random.rate(32);
        input(rate, random.byte(), random.byte())
    })
}

/// The generator splitmix64.
pub struct Random(pub u64);

impl Random {
    fn next(&mut self) -> u64 {
        self.0 = self.0.wrapping_add(0x9e37_79b9_7f4a_7c15);
        let mut mixed = self.0;
        mixed = (mixed ^ mixed >> 30).wrapping_mul(0xbf58_476d_1ce4_e5b9);
        mixed = (mixed ^ mixed >> 27).wrapping_mul(0x94d0_49bb_1331_11eb);
        mixed ^ mixed >> 31
    }

    /// A number below `bound`, which is at most 2^32.
    pub fn below(&mut self, bound: u64) -> u64 {
        (self.next() >> 32) * bound >> 32
    }

    /// A rate of up to `longest` bits, every length as likely as the next.
    pub fn rate(&mut self, longest: u64) -> u32 {
        let length = self.below(longest + 1);
        (self.below(1 << 32) >> (32 - length)) as u32
    }

    pub fn byte(&mut self) -> u8 {
        self.below(256) as u8
    }
}
