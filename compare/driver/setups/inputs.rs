//! The set-ups: grids over every enum value, limits, and seeded random ones.

use super::asked::{Asked, Both, FORMATS, OldUnit, Unit, Width};
use crate::inputs::{Random, SEED, known_cut};

const FILLS: [Option<u32>; 4] = [None, Some(0), Some(1), Some(u32::MAX)];

/// Counts of which the Rust makes no channels, or none that pass.
const ODD_COUNTS: [u8; 6] = [0, 16, 17, 18, 32, 255];

/// Both sides of each limit of the rate, and rates of audio.
const RATES: [u32; 43] = [
    0,
    1,
    2,
    2_440,
    2_441,
    2_442,
    2_443,
    8_000,
    11_025,
    16_000,
    22_050,
    32_000,
    41_680,
    41_681,
    41_693,
    41_694,
    41_695,
    44_100,
    48_000,
    88_200,
    96_000,
    176_400,
    192_000,
    312_500,
    624_999,
    625_000,
    625_001,
    629_975,
    629_976,
    629_977,
    629_978,
    833_333,
    1_250_000,
    4_194_303,
    8_388_607,
    8_388_608,
    16_777_214,
    16_777_215,
    16_777_216,
    16_777_217,
    33_554_432,
    2_147_483_648,
    u32::MAX,
];

pub fn rates() -> Vec<u32> {
    [RATES.as_slice(), known_cut(511, 16)].concat()
}

/// Widths around each limit at this frame.
fn widths(frame: u16) -> Vec<Width> {
    let bits =
        [0, 1, 2, frame / 2, frame.saturating_sub(1), frame, frame + 1, 127, 128, 129, 65_535];
    let mut widths = vec![Width::HalfFrame, Width::OneChannel, Width::Bit];
    widths.extend(bits.map(Width::Bits));
    widths
}

/// Masks within the count, at it and beyond it.
fn masks(count: u8, random: &mut Random) -> [u16; 9] {
    let beyond = u16::MAX.checked_shl(count.into()).unwrap_or(0);
    let first_beyond = 1u16.checked_shl(count.into()).unwrap_or(0);
    let last = 1u16.checked_shl(count.saturating_sub(1).into()).unwrap_or(1);
    let any = random.below(1 << 16) as u16;
    [0, u16::MAX, beyond, first_beyond, !beyond, last, 1, any, any & beyond]
}

/// A unit with stereo's mask or more; a grid changes what it is about.
fn plain(count: u8, format: usize, random: &mut Random) -> Unit {
    let flags = random.below(16);
    Unit {
        rate: audio(random),
        count,
        mask: 1 | random.below(1 << 16) as u16,
        fill: fill(random),
        format,
        width: Width::Bit,
        active_low: flags & 1 != 0,
        msb_shift: flags & 2 != 0,
        big_endian: flags & 4 != 0,
        lsb_first: flags & 8 != 0,
    }
}

/// A rate whose integer part is one that the divider takes.
fn audio(random: &mut Random) -> u32 {
    2_442 + random.below(620_000) as u32
}

fn fill(random: &mut Random) -> Option<u32> {
    match random.below(5) as usize {
        4 => Some(random.below(1 << 32) as u32),
        place => FILLS[place],
    }
}

fn counts() -> impl Iterator<Item = u8> {
    1..=15
}

fn shapes(counts: impl Iterator<Item = u8>) -> impl Iterator<Item = (u8, usize)> {
    counts.flat_map(|count| (0..FORMATS).map(move |format| (count, format)))
}

/// Every count, format, width, polarity, shift, endianness and order.
pub fn every_enum() -> Vec<Unit> {
    let mut random = Random(SEED ^ 1);
    let mut all = Vec::new();
    for (count, format) in shapes(counts()) {
        let frame = plain(count, format, &mut random).frame();
        for width in widths(frame) {
            for flags in 0..16 {
                let unit = plain(count, format, &mut random);
                all.push(Unit {
                    width,
                    active_low: flags & 1 != 0,
                    msb_shift: flags & 2 != 0,
                    big_endian: flags & 4 != 0,
                    lsb_first: flags & 8 != 0,
                    ..unit
                });
            }
        }
    }
    all
}

/// Every count and format with masks and fills.
pub fn masks_and_fills() -> Vec<Unit> {
    let mut random = Random(SEED ^ 2);
    let mut all = Vec::new();
    for (count, format) in shapes(counts()) {
        for mask in masks(count, &mut random) {
            for fill in FILLS {
                all.push(Unit { mask, fill, ..plain(count, format, &mut random) });
            }
        }
    }
    all
}

/// Every count and format at rates around each limit and at the known cut ones.
pub fn rates_of_units() -> Vec<Unit> {
    let mut random = Random(SEED ^ 3);
    let mut all = Vec::new();
    for (count, format) in shapes(counts()) {
        for rate in rates() {
            all.push(Unit { rate, ..plain(count, format, &mut random) });
        }
    }
    all
}

/// Counts of 0, and of 16 and more, with masks, widths and rates.
pub fn odd_counts() -> Vec<Unit> {
    let mut random = Random(SEED ^ 4);
    let mut all = Vec::new();
    for (count, format) in shapes(ODD_COUNTS.into_iter()) {
        let frame = plain(count, format, &mut random).frame();
        for width in widths(frame) {
            for mask in masks(count, &mut random) {
                all.push(Unit { mask, width, ..plain(count, format, &mut random) });
            }
        }
        for rate in rates() {
            all.push(Unit { rate, ..plain(count, format, &mut random) });
        }
    }
    all
}

/// Seeded random ones of 1 to 15 slots, of which every second is such as passes.
pub fn random(count: usize) -> Vec<Unit> {
    let mut random = Random(SEED ^ 5);
    (0..count)
        .map(|place| if place % 2 == 0 { any(&mut random) } else { sane(&mut random) })
        .collect()
}

/// One that passes.
pub fn sane(random: &mut Random) -> Unit {
    let format = random.below(FORMATS as u64) as usize;
    let most = 128 / plain(1, format, random).data_bits() as u64;
    let count = 1 + random.below(most.min(15)) as u8;
    let unit = plain(count, format, random);
    Unit { width: sane_width(unit.frame(), random), ..unit }
}

/// One that may be refused.
pub fn any(random: &mut Random) -> Unit {
    let count = 1 + random.below(15) as u8;
    let format = random.below(FORMATS as u64) as usize;
    let unit = plain(count, format, random);
    Unit {
        rate: random.rate(32),
        mask: random.below(1 << 16) as u16,
        width: any_width(unit.frame(), random),
        ..unit
    }
}

fn sane_width(frame: u16, random: &mut Random) -> Width {
    match random.below(4) {
        0 => Width::HalfFrame,
        1 => Width::OneChannel,
        2 => Width::Bit,
        _ => Width::Bits(1 + random.below(frame.min(128).into()) as u16),
    }
}

fn any_width(frame: u16, random: &mut Random) -> Width {
    let widths = widths(frame);
    match random.below(widths.len() as u64 + 2) as usize {
        place if place < widths.len() => widths[place],
        _ => Width::Bits(random.below(1 << 16) as u16),
    }
}

/// Every set-up of the old chip's transmit unit with every one of its receive unit.
pub fn old_pairs(rates: &[u32]) -> Vec<Both> {
    let mut all = Vec::new();
    for &rate in rates {
        for narrow in [false, true] {
            for tx in OldUnit::all() {
                all.extend(OldUnit::all().map(|rx| Both { rate, narrow, tx, rx }));
            }
        }
    }
    all
}

pub fn new(units: Vec<Unit>) -> Vec<Asked> {
    units.into_iter().map(Asked::New).collect()
}

pub fn old(pairs: Vec<Both>) -> Vec<Asked> {
    pairs.into_iter().map(Asked::Old).collect()
}

/// Lines that are no set-up.
pub fn bad_lines() -> Vec<String> {
    let lines = [
        "1",
        "2 44100 2 3 0 0 4 0 0 1 1 0 0",
        "1 44100 2 3 0 0 4 0 0 1 1 0",
        "1 44100 2 3 0 0 4 0 0 1 1 0 0 0",
        "1 4294967296 2 3 0 0 4 0 0 1 1 0 0",
        "1 99999999999999999999999 2 3 0 0 4 0 0 1 1 0 0",
        "1 -1 2 3 0 0 4 0 0 1 1 0 0",
        "1 44k1 2 3 0 0 4 0 0 1 1 0 0",
        "1 44100 256 3 0 0 4 0 0 1 1 0 0",
        "1 44100 2 65536 0 0 4 0 0 1 1 0 0",
        "1 44100 2 3 2 0 4 0 0 1 1 0 0",
        "1 44100 2 3 0 1 4 0 0 1 1 0 0",
        "1 44100 2 3 0 0 7 0 0 1 1 0 0",
        "1 44100 2 3 0 0 4 4 0 1 1 0 0",
        "1 44100 2 3 0 0 4 2 1 1 1 0 0",
        "1 44100 2 3 0 0 4 3 65536 1 1 0 0",
        "1 44100 2 3 0 0 4 0 0 2 1 0 0",
        "1 44100 2 3 0 0 4 0 0 1 2 0 0",
        "1 44100 2 3 0 0 4 0 0 1 1 2 0",
        "1 44100 2 3 0 0 4 0 0 1 1 0 2",
        "0 44100 2 0 0 0 0 0 0 0 0",
        "0 44100 0 4 0 0 0 0 0 0 0",
        "0 44100 0 0 2 0 0 0 0 0 0",
        "0 44100 0 0 0 2 0 0 0 0 0",
        "0 44100 0 0 0 0 2 0 0 0 0",
        "0 44100 0 0 0 0 0 4 0 0 0",
        "0 44100 0 0 0 0 0 0 0 0",
        "refused 3",
        "\u{e9} 44100",
    ];
    lines.map(str::to_string).to_vec()
}
