//! What is asked of both sides: a call of a chip and what was done before it, as a line of `chip_oracle`.

use crate::{
    published::Chip,
    setups::asked::{Both, OldUnit, Unit},
};

/// How far a half has come.
#[derive(Clone, Copy, Debug, PartialEq, Eq)]
pub enum Course {
    Rest,
    Started,
    Ended,
}

impl Course {
    pub const ALL: [Course; 3] = [Course::Rest, Course::Started, Course::Ended];
}

/// What a start draws.
#[derive(Clone, Copy, Debug, PartialEq, Eq)]
pub struct Draw {
    pub late: u32,
    pub wait: u32,
    pub hung: bool,
}

/// Both halves, what each start draws, and the mask of the enabled events.
#[derive(Clone, Copy, Debug, PartialEq, Eq)]
pub struct Before {
    pub tx: Course,
    pub rx: Course,
    pub draw: Draw,
    pub enabled: u8,
}

impl Before {
    /// A chip to which nothing was done.
    pub const NEW: Before = Before {
        tx: Course::Rest,
        rx: Course::Rest,
        draw: Draw { late: 0, wait: 0, hung: false },
        enabled: 0,
    };
}

/// A function of the driver, with its arguments.
#[derive(Clone, Copy, Debug, PartialEq, Eq)]
pub enum Call {
    SetMaster,
    Update,
    ResetTx,
    TxStop,
    ResetRx,
    RxStart(u32),
    EnableListen(u8, bool),
    Listen(u8),
    Unlisten(u8),
    ClearInterrupts(u8),
    Interrupts,
    TxStart(u16),
    WaitForTxDone(u16),
    WaitForRxDone(u16),
    Configure(Unit, Unit),
    ConfigureTx(Unit),
    ConfigureRx(Unit),
    ConfigureBoth(Both),
    ConfigureOldTx(OldUnit, bool),
    ConfigureOldRx(OldUnit, bool),
}

impl Call {
    pub fn name(&self) -> &'static str {
        match self {
            Call::SetMaster => "set_master",
            Call::Update => "update",
            Call::ResetTx => "reset_tx",
            Call::TxStop => "tx_stop",
            Call::ResetRx => "reset_rx",
            Call::RxStart(_) => "rx_start",
            Call::EnableListen(..) => "enable_listen",
            Call::Listen(_) => "listen",
            Call::Unlisten(_) => "unlisten",
            Call::ClearInterrupts(_) => "clear_interrupts",
            Call::Interrupts => "interrupts",
            Call::TxStart(_) => "tx_start",
            Call::WaitForTxDone(_) => "wait_for_tx_done",
            Call::WaitForRxDone(_) => "wait_for_rx_done",
            Call::Configure(..) | Call::ConfigureBoth(_) => "configure",
            Call::ConfigureTx(_) | Call::ConfigureOldTx(..) => "configure_tx",
            Call::ConfigureRx(_) | Call::ConfigureOldRx(..) => "configure_rx",
        }
    }

    /// The polls that the port is allowed.
    pub fn allowance(&self) -> Option<u16> {
        match *self {
            Call::TxStart(n) | Call::WaitForTxDone(n) | Call::WaitForRxDone(n) => Some(n),
            _ => None,
        }
    }

    pub fn with_allowance(self, allowance: u16) -> Call {
        match self {
            Call::TxStart(_) => Call::TxStart(allowance),
            Call::WaitForTxDone(_) => Call::WaitForTxDone(allowance),
            Call::WaitForRxDone(_) => Call::WaitForRxDone(allowance),
            other => other,
        }
    }

    /// The mask of events that is handed in.
    pub fn mask(&self) -> Option<u8> {
        match *self {
            Call::EnableListen(mask, _)
            | Call::Listen(mask)
            | Call::Unlisten(mask)
            | Call::ClearInterrupts(mask) => Some(mask),
            _ => None,
        }
    }

    fn arguments(&self) -> String {
        match *self {
            Call::SetMaster
            | Call::Update
            | Call::ResetTx
            | Call::TxStop
            | Call::ResetRx
            | Call::Interrupts => String::new(),
            Call::RxStart(len) => format!(" {len}"),
            Call::EnableListen(mask, on) => format!(" {mask} {}", on as u8),
            Call::Listen(mask) | Call::Unlisten(mask) | Call::ClearInterrupts(mask) => {
                format!(" {mask}")
            }
            Call::TxStart(n) | Call::WaitForTxDone(n) | Call::WaitForRxDone(n) => format!(" {n}"),
            Call::Configure(tx, rx) => format!(" {} {}", tx.words(), rx.words()),
            Call::ConfigureTx(unit) | Call::ConfigureRx(unit) => format!(" {}", unit.words()),
            Call::ConfigureBoth(both) => format!(" {}", both.words()),
            Call::ConfigureOldTx(unit, narrow) | Call::ConfigureOldRx(unit, narrow) => {
                format!(" {} {}", narrow as u8, unit.words())
            }
        }
    }
}

#[derive(Clone, Copy, Debug, PartialEq, Eq)]
pub struct Asked {
    pub chip: Chip,
    pub before: Before,
    pub call: Call,
}

impl Asked {
    pub fn line(&self) -> String {
        let Before { tx, rx, draw: Draw { late, wait, hung }, enabled } = self.before;
        format!(
            "{} {} {} {} {late} {wait} {} {enabled}{}",
            self.chip as u8,
            self.call.name(),
            tx as u8,
            rx as u8,
            hung as u8,
            self.call.arguments()
        )
    }
}
