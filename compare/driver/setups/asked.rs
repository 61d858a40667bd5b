//! What is asked of both sides: set-ups as plain numbers, and as lines of `setup_oracle`.
//! An enum's variant is its place, counted from 0 as the Rust declares them.

pub const FORMATS: usize = 7;

const DATA_BITS: [u8; FORMATS] = [32, 32, 32, 32, 16, 16, 8];

#[derive(Clone, Copy, Debug, PartialEq, Eq)]
pub enum Width {
    HalfFrame,
    OneChannel,
    Bit,
    Bits(u16),
}

/// A unit of the new chip.
#[derive(Clone, Copy, Debug, PartialEq, Eq)]
pub struct Unit {
    pub rate: u32,
    pub count: u8,
    pub mask: u16,
    pub fill: Option<u32>,
    pub format: usize,
    pub width: Width,
    pub active_low: bool,
    pub msb_shift: bool,
    pub big_endian: bool,
    pub lsb_first: bool,
}

impl Unit {
    pub fn data_bits(&self) -> u8 {
        DATA_BITS[self.format]
    }

    pub fn frame(&self) -> u16 {
        self.count as u16 * self.data_bits() as u16
    }

    pub fn line(&self) -> String {
        format!("1 {}", self.words())
    }

    pub fn words(&self) -> String {
        let filled = self.fill.is_some() as u8;
        let fill = self.fill.unwrap_or(0);
        let (width, bits) = match self.width {
            Width::HalfFrame => (0, 0),
            Width::OneChannel => (1, 0),
            Width::Bit => (2, 0),
            Width::Bits(bits) => (3, bits),
        };
        let flags = [self.active_low, self.msb_shift, self.big_endian, self.lsb_first];
        let [polarity, shift, endianness, order] = flags.map(u8::from);
        let Unit { rate, count, mask, format, .. } = self;
        format!(
            "{rate} {count} {mask} {filled} {fill} {format} {width} {bits} {polarity} {shift} \
             {endianness} {order}"
        )
    }
}

/// What the old chip has of one unit.
#[derive(Clone, Copy, Debug, PartialEq, Eq)]
pub struct OldUnit {
    pub channels: usize,
    pub bit_wide: bool,
    pub active_low: bool,
    pub msb_shift: bool,
}

impl OldUnit {
    pub fn all() -> impl Iterator<Item = OldUnit> {
        (0..32).map(|place| OldUnit {
            channels: place / 8,
            bit_wide: place / 4 % 2 != 0,
            active_low: place / 2 % 2 != 0,
            msb_shift: place % 2 != 0,
        })
    }

    pub fn words(&self) -> String {
        let flags = [self.bit_wide, self.active_low, self.msb_shift];
        let [width, polarity, shift] = flags.map(u8::from);
        format!("{} {width} {polarity} {shift}", self.channels)
    }
}

/// Both units of the old chip, which have a rate and a format together.
#[derive(Clone, Copy, Debug, PartialEq, Eq)]
pub struct Both {
    pub rate: u32,
    pub narrow: bool,
    pub tx: OldUnit,
    pub rx: OldUnit,
}

impl Both {
    pub fn data_bits(&self) -> u8 {
        if self.narrow { 16 } else { 32 }
    }

    pub fn line(&self) -> String {
        format!("0 {}", self.words())
    }

    pub fn words(&self) -> String {
        let Both { rate, narrow, tx, rx } = self;
        format!("{rate} {} {} {}", *narrow as u8, tx.words(), rx.words())
    }
}

/// A set-up of either chip.
#[derive(Clone, Copy, Debug, PartialEq, Eq)]
pub enum Asked {
    New(Unit),
    Old(Both),
}

impl Asked {
    pub fn line(&self) -> String {
        match self {
            Asked::New(unit) => unit.line(),
            Asked::Old(both) => both.line(),
        }
    }
}
