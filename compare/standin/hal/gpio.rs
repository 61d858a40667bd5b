//! Stand-in for the module `gpio`: signals and pins whose connection does nothing.
#![allow(non_camel_case_types)]

#[derive(Default)]
pub struct InputConfig;

#[derive(Default)]
pub struct OutputConfig;

/// The signals of the old chip.
#[cfg(esp32)]
pub enum OutputSignal {
    CLK_OUT1,
    CLK_OUT2,
    CLK_OUT3,
    I2S0O_BCK,
    I2S0O_WS,
    I2S0O_DATA_23,
    I2S0I_BCK,
    I2S0I_WS,
    I2S1O_BCK,
    I2S1O_WS,
    I2S1O_DATA_23,
    I2S1I_BCK,
    I2S1I_WS,
}

#[cfg(esp32)]
pub enum InputSignal {
    I2S0I_DATA_15,
    I2S1I_DATA_15,
}

/// The signals of the new chip.
#[cfg(esp32c3)]
pub enum OutputSignal {
    I2S_MCLK,
    I2SO_BCK,
    I2SO_WS,
    I2SO_SD,
    I2SI_BCK,
    I2SI_WS,
}

#[cfg(esp32c3)]
pub enum InputSignal {
    I2SI_SD,
}

impl OutputSignal {
    pub fn connect_to(self, _pin: &interconnect::OutputSignal<'_>) {}
}

impl InputSignal {
    pub fn connect_to(self, _pin: &interconnect::InputSignal<'_>) {}
}

pub mod interconnect {
    use core::marker::PhantomData;

    pub struct InputSignal<'d>(pub(crate) PhantomData<&'d ()>);

    pub struct OutputSignal<'d>(pub(crate) PhantomData<&'d ()>);

    pub trait PeripheralInput<'d>: Into<InputSignal<'d>> {}

    pub trait PeripheralOutput<'d>: Into<OutputSignal<'d>> {}

    impl InputSignal<'_> {
        pub fn apply_input_config(&self, _config: &super::InputConfig) {}
        pub fn set_input_enable(&self, _on: bool) {}
    }

    impl OutputSignal<'_> {
        pub fn apply_output_config(&self, _config: &super::OutputConfig) {}
        pub fn set_output_enable(&self, _on: bool) {}
    }
}
