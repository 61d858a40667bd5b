//! The published Rust's units, run with a block behind the registers.

use std::{cell::RefCell, panic::AssertUnwindSafe, rc::Rc};

use recorder::{Behind, over};

use super::asked::{Call, Opening};
use crate::{
    chips::block::Block,
    published::{Chip, caught},
    setups::recorded::Build,
};

/// What the published units and openings refuse with.
#[derive(Clone, Copy, Debug, PartialEq, Eq)]
pub enum Refusal {
    /// A set-up, with the port's number.
    SetUp(u32),
    IllegalArgument,
    Dma,
}

/// Both units of an opening of one build.
pub trait Units {
    fn make(&mut self, call: Call) -> Result<(), Refusal>;

    /// A read into words of so many bytes, which is a start and a wait.
    fn read_words(&mut self, len: u32) -> Result<(), Refusal>;
}

/// The block after a run, and what the run gave; nothing if it panicked.
pub fn run<T>(block: Block, run: impl FnOnce() -> T) -> (Block, Option<T>) {
    let block = Rc::new(RefCell::new(block));
    let behind: Rc<RefCell<dyn Behind>> = block.clone();
    let given = over(behind, || caught(AssertUnwindSafe(run)));
    let block = Rc::try_unwrap(block).ok().expect("nothing else has the block").into_inner();
    (block, given)
}

/// The published `I2s::new` and its two units.
pub fn open(build: Build, opening: &Opening) -> Result<Box<dyn Units>, Refusal> {
    match (build, opening.chip()) {
        (Build::Checked, Chip::Old) => old_checked_units::open(opening),
        (Build::Unchecked, Chip::Old) => old_unchecked_units::open(opening),
        (Build::Checked, Chip::New) => new_checked_units::open(opening),
        (Build::Unchecked, Chip::New) => new_unchecked_units::open(opening),
    }
}

/// The mask of the events that are reported.
pub fn reported(build: Build, chip: Chip) -> u8 {
    match (build, chip) {
        (Build::Checked, Chip::Old) => old_checked::Window::reported(),
        (Build::Unchecked, Chip::Old) => old_unchecked::Window::reported(),
        (Build::Checked, Chip::New) => new_checked::Window::reported(),
        (Build::Unchecked, Chip::New) => new_unchecked::Window::reported(),
    }
}

macro_rules! units {
    ($name:ident, $build:ident, $($set_up:tt)*) => {
        mod $name {
            use $build::{
                Blocking, Window,
                i2s::master::{ConfigError, Error, I2sRx, I2sTx},
            };

            use super::{Refusal, Units};
            use crate::orders::asked::{Call, Opening, SetUps, Side, UnitCall, UnitSetUp};
            use crate::setups::recorded;

            struct Made {
                tx: I2sTx<'static, Blocking>,
                rx: I2sRx<'static, Blocking>,
            }

            pub fn open(opening: &Opening) -> Result<Box<dyn Units>, Refusal> {
                let [tx_limit, rx_limit] = opening.limits;
                let (tx, rx) = Window::units(config(opening.set_ups), tx_limit, rx_limit)
                    .map_err(set_up_refusal)?;
                Ok(Box::new(Made { tx, rx }))
            }

            fn refusal(error: Error) -> Refusal {
                match error {
                    Error::IllegalArgument => Refusal::IllegalArgument,
                    Error::DmaError(_) => Refusal::Dma,
                    Error::Unknown => panic!("no transfer answers this"),
                }
            }

            impl Units for Made {
                /// The published `listen` and its like are the whole driver's: they are handed the unit's own events.
                fn make(&mut self, Call { side, call }: Call) -> Result<(), Refusal> {
                    match (side, call) {
                        (Side::Transmit, UnitCall::ApplyConfig(set_up)) => {
                            return Window::tx_applied(&mut self.tx, &unit(set_up))
                                .map_err(set_up_refusal);
                        }
                        (Side::Receive, UnitCall::ApplyConfig(set_up)) => {
                            return Window::rx_applied(&mut self.rx, &unit(set_up))
                                .map_err(set_up_refusal);
                        }
                        (Side::Transmit, UnitCall::Start(len, _)) => {
                            return Window::write_begun(&mut self.tx, len as usize)
                                .map_err(refusal);
                        }
                        (Side::Receive, UnitCall::Start(len, _)) => {
                            return Window::read_begun(&mut self.rx, len as usize).map_err(refusal);
                        }
                        (Side::Transmit, UnitCall::Wait(_)) => Window::write_ended(&mut self.tx),
                        (Side::Receive, UnitCall::Wait(_)) => Window::read_ended(&mut self.rx),
                        (Side::Transmit, UnitCall::Stop) => Window::write_stopped(&mut self.tx),
                        (Side::Receive, UnitCall::Stop) => Window::read_stopped(&mut self.rx),
                        (_, UnitCall::Listen(own)) => Window::enabled_listen(own, true),
                        (_, UnitCall::Unlisten(own)) => Window::enabled_listen(own, false),
                        (_, UnitCall::ClearInterrupts(own)) => Window::cleared(own),
                    }
                    Ok(())
                }

                fn read_words(&mut self, len: u32) -> Result<(), Refusal> {
                    Window::words_read(&mut self.rx, &mut vec![0; len as usize]).map_err(refusal)
                }
            }

            $($set_up)*
        }
    };
}

macro_rules! old_units {
    ($name:ident, $build:ident, $configs:ident) => {
        units! { $name, $build,
            use $build::i2s::master::{Config, UnitConfig};

            fn config(set_ups: SetUps) -> Config {
                match set_ups {
                    SetUps::Old(both) => recorded::$configs::config(both),
                    SetUps::New(..) => panic!("these are set-ups of the other chip"),
                }
            }

            fn unit(set_up: UnitSetUp) -> UnitConfig {
                match set_up {
                    UnitSetUp::Old(unit) => recorded::$configs::unit(unit),
                    UnitSetUp::New(_) => panic!("this is a set-up of the other chip"),
                }
            }

            fn set_up_refusal(_: ConfigError) -> Refusal {
                panic!("this chip refuses no set-up")
            }
        }
    };
}

old_units!(old_checked_units, old_checked, checked_both);
old_units!(old_unchecked_units, old_unchecked, unchecked_both);

macro_rules! new_units {
    ($name:ident, $build:ident, $configs:ident) => {
        units! { $name, $build,
            use $build::i2s::master::{Config, UnitConfig};

            fn config(set_ups: SetUps) -> Config {
                match set_ups {
                    SetUps::New(tx, rx) => Config::new_tdm_philips()
                        .with_tx_config(unit(UnitSetUp::New(tx)))
                        .with_rx_config(unit(UnitSetUp::New(rx))),
                    SetUps::Old(_) => panic!("these are set-ups of the other chip"),
                }
            }

            fn unit(set_up: UnitSetUp) -> UnitConfig {
                match set_up {
                    UnitSetUp::New(unit) => {
                        let channels = Window::made_channels(unit.count, unit.mask, unit.fill);
                        recorded::$configs::config(unit, channels)
                    }
                    UnitSetUp::Old(_) => panic!("this is a set-up of the other chip"),
                }
            }

            fn set_up_refusal(error: ConfigError) -> Refusal {
                Refusal::SetUp(recorded::$configs::number(error))
            }
        }
    };
}

new_units!(new_checked_units, new_checked, checked_unit);
new_units!(new_unchecked_units, new_unchecked, unchecked_unit);
