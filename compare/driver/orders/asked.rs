//! What is asked of both sides: an opening and calls of its units, as lines of `chip_oracle`.

use crate::{
    chips::asked::Draw,
    published::Chip,
    setups::asked::{Both, OldUnit, Unit},
};

/// The line that ends an order.
pub const LAST: &str = "interrupts";

#[derive(Clone, Copy, Debug, PartialEq, Eq)]
pub enum Side {
    Transmit,
    Receive,
}

impl Side {
    pub const BOTH: [Side; 2] = [Side::Transmit, Side::Receive];

    pub fn word(self) -> &'static str {
        match self {
            Side::Transmit => "tx",
            Side::Receive => "rx",
        }
    }
}

/// The set-up of one unit of either chip.
#[derive(Clone, Copy, Debug, PartialEq, Eq)]
pub enum UnitSetUp {
    New(Unit),
    Old(OldUnit),
}

/// A call of a unit, with its arguments.
#[derive(Clone, Copy, Debug, PartialEq, Eq)]
pub enum UnitCall {
    ApplyConfig(UnitSetUp),
    /// So many bytes, and so many polls.
    Start(u32, u16),
    Wait(u16),
    /// `tx_stop` or `abandon`.
    Stop,
    Listen(u8),
    Unlisten(u8),
    ClearInterrupts(u8),
}

impl UnitCall {
    pub fn name(&self) -> &'static str {
        match self {
            UnitCall::ApplyConfig(_) => "apply_config",
            UnitCall::Start(..) => "start",
            UnitCall::Wait(_) => "wait",
            UnitCall::Stop => "stop",
            UnitCall::Listen(_) => "listen",
            UnitCall::Unlisten(_) => "unlisten",
            UnitCall::ClearInterrupts(_) => "clear_interrupts",
        }
    }

    /// Whether a unit takes it that runs, or is at rest.
    pub fn is_taken(&self, runs: bool) -> bool {
        match self {
            UnitCall::ApplyConfig(_) | UnitCall::Start(..) => !runs,
            UnitCall::Wait(_) | UnitCall::Stop => runs,
            UnitCall::Listen(_) | UnitCall::Unlisten(_) | UnitCall::ClearInterrupts(_) => true,
        }
    }

    pub fn allowance(&self) -> Option<u16> {
        match *self {
            UnitCall::Start(_, allowance) | UnitCall::Wait(allowance) => Some(allowance),
            _ => None,
        }
    }

    pub fn mask(&self) -> Option<u8> {
        match *self {
            UnitCall::Listen(mask) | UnitCall::Unlisten(mask) | UnitCall::ClearInterrupts(mask) => {
                Some(mask)
            }
            _ => None,
        }
    }

    fn arguments(&self) -> String {
        match *self {
            UnitCall::ApplyConfig(UnitSetUp::New(unit)) => format!(" {}", unit.words()),
            UnitCall::ApplyConfig(UnitSetUp::Old(unit)) => format!(" {}", unit.words()),
            UnitCall::Start(len, allowance) => format!(" {len} {allowance}"),
            UnitCall::Wait(allowance) => format!(" {allowance}"),
            UnitCall::Stop => String::new(),
            UnitCall::Listen(mask) | UnitCall::Unlisten(mask) | UnitCall::ClearInterrupts(mask) => {
                format!(" {mask}")
            }
        }
    }
}

#[derive(Clone, Copy, Debug, PartialEq, Eq)]
pub struct Call {
    pub side: Side,
    pub call: UnitCall,
}

impl Call {
    pub fn line(&self) -> String {
        format!("{} {}{}", self.side.word(), self.call.name(), self.call.arguments())
    }
}

/// The set-ups that are handed to `open`.
#[derive(Clone, Copy, Debug, PartialEq, Eq)]
pub enum SetUps {
    New(Unit, Unit),
    Old(Both),
}

/// An opening over a new block, with its limits and draws for each half, transmit first.
#[derive(Clone, Debug, PartialEq, Eq)]
pub struct Opening {
    pub set_ups: SetUps,
    pub limits: [u16; 2],
    pub draws: [Vec<Draw>; 2],
}

impl Opening {
    pub fn chip(&self) -> Chip {
        match self.set_ups {
            SetUps::New(..) => Chip::New,
            SetUps::Old(_) => Chip::Old,
        }
    }

    pub fn line(&self) -> String {
        let [tx_limit, rx_limit] = self.limits;
        let [tx, rx] = &self.draws;
        let draws: String = tx.iter().chain(rx).map(words).collect();
        let set_ups = match self.set_ups {
            SetUps::New(tx, rx) => format!("{} {}", tx.words(), rx.words()),
            SetUps::Old(both) => both.words(),
        };
        let chip = self.chip() as u8;
        format!("open {chip} {tx_limit} {rx_limit} {} {}{draws} {set_ups}", tx.len(), rx.len())
    }
}

fn words(draw: &Draw) -> String {
    format!(" {} {} {}", draw.late, draw.wait, draw.hung as u8)
}
