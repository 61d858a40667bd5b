//! Stand-in for the module `system`: the guard of a peripheral's clock, with no clock behind it.

#[derive(Clone, Copy)]
pub enum Peripheral {
    I2s0,
    I2s1,
}

pub(crate) struct PeripheralGuard;

impl PeripheralGuard {
    pub(crate) fn new(_peripheral: Peripheral) -> Self {
        PeripheralGuard
    }
}
