//! The published Rust's answers to set-ups, with what it does to the registers.

use std::panic::UnwindSafe;

use recorder::{Event, recorded};

use super::asked::{Both, Unit};
use crate::published::caught;

#[derive(Clone, Debug, PartialEq, Eq)]
pub enum Answer {
    Stored(Vec<Event>),
    Refused(u32),
    Panicked,
}

#[derive(Clone, Copy, Debug, PartialEq, Eq)]
pub enum Build {
    Checked,
    Unchecked,
}

#[derive(Clone, Copy, Debug, PartialEq, Eq)]
pub enum Half {
    Transmit,
    Receive,
}

/// How the channels come about: by `Channels::new`, or past its shift, with the mask as it is.
#[derive(Clone, Copy, Debug, PartialEq, Eq)]
pub enum Channels {
    Made,
    Whole,
}

pub fn unit(build: Build, unit: Unit, half: Half, channels: Channels) -> Answer {
    match build {
        Build::Checked => checked_unit::answer(unit, half, channels),
        Build::Unchecked => unchecked_unit::answer(unit, half, channels),
    }
}

/// The checked build's answer where both units have this set-up.
pub fn twice(unit: Unit) -> Answer {
    checked_unit::twice(unit)
}

pub fn both(build: Build, both: Both) -> Answer {
    match build {
        Build::Checked => checked_both::answer(both),
        Build::Unchecked => unchecked_both::answer(both),
    }
}

fn answered(run: impl FnOnce() -> Result<(), u32> + UnwindSafe) -> Answer {
    let (given, events) = recorded(|| caught(run));
    match given {
        Some(Ok(())) => Answer::Stored(events),
        Some(Err(number)) => Answer::Refused(number),
        None => Answer::Panicked,
    }
}

macro_rules! new_chip {
    ($name:ident, $build:ident) => {
        pub mod $name {
            use $build::{
                Window,
                i2s::master::{
                    BitOrder, Channels, Config, ConfigError, DataFormat, Endianness, Polarity,
                    UnitConfig, WsWidth,
                },
                time::Rate,
            };

            use crate::setups::{
                asked::{FORMATS, Unit, Width},
                recorded::{self, Answer, Half, answered},
            };

            const FORMAT: [DataFormat; FORMATS] = [
                DataFormat::Data32Channel32,
                DataFormat::Data32Channel24,
                DataFormat::Data32Channel16,
                DataFormat::Data32Channel8,
                DataFormat::Data16Channel16,
                DataFormat::Data16Channel8,
                DataFormat::Data8Channel8,
            ];

            pub fn answer(unit: Unit, half: Half, channels: recorded::Channels) -> Answer {
                answered(move || {
                    let make = match channels {
                        recorded::Channels::Made => Window::made_channels,
                        recorded::Channels::Whole => Window::whole_channels,
                    };
                    let config = config(unit, make(unit.count, unit.mask, unit.fill));
                    let given = match half {
                        Half::Transmit => Window::set_up_tx(&config),
                        Half::Receive => Window::set_up_rx(&config),
                    };
                    given.map_err(number)
                })
            }

            #[allow(dead_code)]
            pub fn twice(unit: Unit) -> Answer {
                answered(move || {
                    let channels = Window::made_channels(unit.count, unit.mask, unit.fill);
                    let unit = config(unit, channels);
                    let config =
                        Config::new_tdm_philips().with_tx_config(unit).with_rx_config(unit);
                    Window::set_up_both(&config).map_err(number)
                })
            }

            pub fn config(unit: Unit, channels: Channels) -> UnitConfig {
                UnitConfig::new_tdm_philips()
                    .with_sample_rate(Rate::from_hz(unit.rate))
                    .with_channels(channels)
                    .with_data_format(FORMAT[unit.format])
                    .with_ws_width(match unit.width {
                        Width::HalfFrame => WsWidth::HalfFrame,
                        Width::OneChannel => WsWidth::OneChannel,
                        Width::Bit => WsWidth::Bit,
                        Width::Bits(bits) => WsWidth::Bits(bits),
                    })
                    .with_ws_polarity(match unit.active_low {
                        true => Polarity::ActiveLow,
                        false => Polarity::ActiveHigh,
                    })
                    .with_msb_shift(unit.msb_shift)
                    .with_endianness(match unit.big_endian {
                        true => Endianness::BigEndian,
                        false => Endianness::LittleEndian,
                    })
                    .with_bit_order(match unit.lsb_first {
                        true => BitOrder::LsbFirst,
                        false => BitOrder::MsbFirst,
                    })
            }

            /// The port's number of the refusal.
            pub fn number(error: ConfigError) -> u32 {
                match error {
                    ConfigError::ChannelsOutOfRange => 1,
                    ConfigError::WsWidthOutOfRange => 2,
                    _ => 0,
                }
            }
        }
    };
}

new_chip!(checked_unit, new_checked);
new_chip!(unchecked_unit, new_unchecked);

macro_rules! old_chip {
    ($name:ident, $build:ident) => {
        pub mod $name {
            use $build::{
                Window,
                i2s::master::{Channels, Config, DataFormat, Polarity, UnitConfig, WsWidth},
                time::Rate,
            };

            use crate::setups::{
                asked::{Both, OldUnit},
                recorded::{Answer, answered},
            };

            const CHANNELS: [Channels; 4] =
                [Channels::STEREO, Channels::MONO, Channels::LEFT, Channels::RIGHT];

            pub fn answer(both: Both) -> Answer {
                answered(move || Window::set_up_both(&config(both)).map_err(|_| 0))
            }

            pub fn config(both: Both) -> Config {
                Config::new_tdm_philips()
                    .with_sample_rate(Rate::from_hz(both.rate))
                    .with_data_format(match both.narrow {
                        true => DataFormat::Data16Channel16,
                        false => DataFormat::Data32Channel32,
                    })
                    .with_tx_config(unit(both.tx))
                    .with_rx_config(unit(both.rx))
            }

            pub fn unit(unit: OldUnit) -> UnitConfig {
                UnitConfig::new_tdm_philips()
                    .with_channels(CHANNELS[unit.channels])
                    .with_ws_width(match unit.bit_wide {
                        true => WsWidth::Bit,
                        false => WsWidth::HalfFrame,
                    })
                    .with_ws_polarity(match unit.active_low {
                        true => Polarity::ActiveLow,
                        false => Polarity::ActiveHigh,
                    })
                    .with_msb_shift(unit.msb_shift)
            }
        }
    };
}

old_chip!(checked_both, old_checked);
old_chip!(unchecked_both, old_unchecked);
