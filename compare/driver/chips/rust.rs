//! The published Rust's functions, run with a block behind the registers.

use std::{cell::RefCell, panic::AssertUnwindSafe, rc::Rc};

use recorder::{Behind, over};

use super::{
    asked::{Asked, Call},
    block::Block,
};
use crate::{
    published::{Chip, caught},
    setups::recorded::Build,
};

/// What a function gives: a mask of events where it answers one, or the port's number of what refuses it.
type Given = Result<u8, u32>;

/// The block after the call, and what the call gave; nothing if it panicked.
pub fn run(build: Build, asked: Asked) -> (Block, Option<Given>) {
    let Asked { chip, before, call } = asked;
    let for_both = match call {
        Call::EnableListen(_, on) => Some(on),
        Call::Listen(_) => Some(true),
        Call::Unlisten(_) | Call::ClearInterrupts(_) => Some(false),
        _ => None,
    };
    let block = Rc::new(RefCell::new(Block::new(chip, before, call.allowance(), for_both)));
    let behind: Rc<RefCell<dyn Behind>> = block.clone();
    let made = AssertUnwindSafe(|| match (build, chip) {
        (Build::Checked, Chip::Old) => old_checked_chip::made(call),
        (Build::Unchecked, Chip::Old) => old_unchecked_chip::made(call),
        (Build::Checked, Chip::New) => new_checked_chip::made(call),
        (Build::Unchecked, Chip::New) => new_unchecked_chip::made(call),
    });
    let given = over(behind, || caught(made));
    let block = Rc::try_unwrap(block).ok().expect("nothing else has the block").into_inner();
    (block, given)
}

macro_rules! chip {
    ($name:ident, $build:ident, $($set_up:tt)*) => {
        mod $name {
            use $build::Window;

            use super::Given;
            use crate::chips::asked::Call;
            use crate::setups::recorded;

            pub fn made(call: Call) -> Given {
                match call {
                    Call::SetMaster => Window::set_up_master(),
                    Call::Update => Window::updated(),
                    Call::ResetTx => Window::tx_reset(),
                    Call::TxStop => Window::tx_stopped(),
                    Call::ResetRx => Window::rx_reset(),
                    Call::RxStart(len) => Window::rx_started(len as usize),
                    Call::EnableListen(mask, on) => Window::enabled_listen(mask, on),
                    Call::ClearInterrupts(mask) => Window::cleared(mask),
                    Call::Interrupts => return Ok(Window::reported()),
                    Call::TxStart(_) => Window::tx_started(),
                    Call::WaitForTxDone(_) => Window::tx_waited(),
                    Call::WaitForRxDone(_) => Window::rx_waited(),
                    call => set_up(call)?,
                }
                Ok(0)
            }

            $($set_up)*
        }
    };
}

macro_rules! old_chip {
    ($name:ident, $build:ident, $configs:ident) => {
        chip! { $name, $build,
            use $build::i2s::master::DataFormat;
            use recorded::$configs::{config, unit};

            /// The published functions of this chip refuse nothing.
            const NO_NUMBER: u32 = 0;

            fn format(narrow: bool) -> DataFormat {
                match narrow {
                    true => DataFormat::Data16Channel16,
                    false => DataFormat::Data32Channel32,
                }
            }

            fn set_up(call: Call) -> Result<(), u32> {
                let given = match call {
                    // The published trait of this chip has these two as one.
                    Call::Listen(mask) => Ok(Window::enabled_listen(mask, true)),
                    Call::Unlisten(mask) => Ok(Window::enabled_listen(mask, false)),
                    Call::ConfigureBoth(both) => Window::set_up_both(&config(both)),
                    Call::ConfigureOldTx(of, narrow) => {
                        Window::set_up_tx(&unit(of), format(narrow))
                    }
                    Call::ConfigureOldRx(of, narrow) => {
                        Window::set_up_rx(&unit(of), format(narrow))
                    }
                    call => panic!("{} is no call of this chip", call.name()),
                };
                given.map_err(|_| NO_NUMBER)
            }
        }
    };
}

old_chip!(old_checked_chip, old_checked, checked_both);
old_chip!(old_unchecked_chip, old_unchecked, unchecked_both);

macro_rules! new_chip {
    ($name:ident, $build:ident, $configs:ident) => {
        chip! { $name, $build,
            use $build::i2s::master::{Config, UnitConfig};
            use crate::setups::asked::Unit;

            fn config(unit: Unit) -> UnitConfig {
                let channels = Window::made_channels(unit.count, unit.mask, unit.fill);
                recorded::$configs::config(unit, channels)
            }

            fn set_up(call: Call) -> Result<(), u32> {
                let given = match call {
                    Call::Listen(mask) => Ok(Window::listened(mask)),
                    Call::Unlisten(mask) => Ok(Window::unlistened(mask)),
                    Call::Configure(tx, rx) => {
                        let both = Config::new_tdm_philips();
                        let both = both.with_tx_config(config(tx)).with_rx_config(config(rx));
                        Window::set_up_both(&both)
                    }
                    Call::ConfigureTx(unit) => Window::set_up_tx(&config(unit)),
                    Call::ConfigureRx(unit) => Window::set_up_rx(&config(unit)),
                    call => panic!("{} is no call of this chip", call.name()),
                };
                given.map_err(recorded::$configs::number)
            }
        }
    };
}

new_chip!(new_checked_chip, new_checked, checked_unit);
new_chip!(new_unchecked_chip, new_unchecked, unchecked_unit);
