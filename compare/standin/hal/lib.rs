//! Stand-in for the root of the published crate: takes in its sources unchanged (`i2s::master`,
//! `time` and the chip's `soc` module) and gives what they name, as far as a compile needs it.
#![allow(dead_code, unused)]

/// What the driver's module of private items shows of itself; see the stand-in of `delegate`.
macro_rules! window {
    () => {
        /// The dividers of a rate: integer part, bit divider, denominator, numerator.
        #[inline(never)]
        pub fn clock_dividers(rate: u32, channels: u8, data_bits: u8) -> [u32; 4] {
            let found = I2sClockDividers::new(Rate::from_hz(rate), channels, data_bits);
            [found.mclk_divider, found.bclk_divider, found.denominator, found.numerator]
        }

        /// The split of a pair as the new chip takes it: x, y, z, yn1.
        #[cfg(esp32c3)]
        #[inline(never)]
        pub fn split(denominator: u32, numerator: u32) -> [u32; 4] {
            let pair =
                I2sClockDividers { mclk_divider: 0, bclk_divider: 0, denominator, numerator };
            let found = pair.mclk_dividers();
            [found.x, found.y, found.z, found.yn1 as u32]
        }

        /// The published function itself, so that a measurement has no call of ours around it.
        pub const NEW: fn(Rate, u8, u8) -> I2sClockDividers = I2sClockDividers::new;

        /// The largest denominator that the search tries.
        pub const MAX: u32 = I2S_LL_MCLK_DIVIDER_MAX as u32;

        /// The first peripheral, with the recorder behind its registers.
        fn first() -> AnyI2s<'static> {
            AnyI2s(AnyI2sInner::I2s0(I2S0(core::marker::PhantomData)))
        }

        #[inline(never)]
        pub fn set_up_both(config: &Config) -> Result<(), ConfigError> {
            Self::first().configure(config)
        }

        #[cfg(esp32c3)]
        #[inline(never)]
        pub fn set_up_tx(config: &UnitConfig) -> Result<(), ConfigError> {
            Self::first().configure_tx(config)
        }

        #[cfg(esp32c3)]
        #[inline(never)]
        pub fn set_up_rx(config: &UnitConfig) -> Result<(), ConfigError> {
            Self::first().configure_rx(config)
        }

        /// The events of a mask: 1 for rx_hung, 2 for tx_hung, 4 for rx_done, 8 for tx_done. One that the
        /// chip lacks is passed over.
        fn events_of(mask: u8) -> EnumSet<I2sInterrupt> {
            let mut events = EnumSet::new();
            for (bit, event) in Self::EVENTS.into_iter().enumerate() {
                if mask >> bit & 1 != 0 {
                    events.insert(event);
                }
            }
            events
        }

        #[cfg(esp32)]
        const EVENTS: [I2sInterrupt; 2] = [I2sInterrupt::RxHung, I2sInterrupt::TxHung];

        #[cfg(esp32c3)]
        const EVENTS: [I2sInterrupt; 4] = [
            I2sInterrupt::RxHung,
            I2sInterrupt::TxHung,
            I2sInterrupt::RxDone,
            I2sInterrupt::TxDone,
        ];

        #[inline(never)]
        pub fn set_up_master() {
            Self::first().set_master()
        }

        #[inline(never)]
        pub fn updated() {
            Self::first().update()
        }

        #[inline(never)]
        pub fn enabled_listen(mask: u8, enable: bool) {
            Self::first().enable_listen(Self::events_of(mask), enable)
        }

        #[cfg(esp32c3)]
        #[inline(never)]
        pub fn listened(mask: u8) {
            RegisterAccessPrivate::listen(&Self::first(), Self::events_of(mask))
        }

        #[cfg(esp32c3)]
        #[inline(never)]
        pub fn unlistened(mask: u8) {
            RegisterAccessPrivate::unlisten(&Self::first(), Self::events_of(mask))
        }

        #[inline(never)]
        pub fn reported() -> u8 {
            let events = Self::first().interrupts();
            let bits = Self::EVENTS.into_iter().enumerate();
            bits.map(|(bit, event)| (events.contains(event) as u8) << bit).sum()
        }

        #[inline(never)]
        pub fn cleared(mask: u8) {
            Self::first().clear_interrupts(Self::events_of(mask))
        }

        #[inline(never)]
        pub fn tx_reset() {
            Self::first().reset_tx()
        }

        #[inline(never)]
        pub fn tx_started() {
            Self::first().tx_start()
        }

        #[inline(never)]
        pub fn tx_stopped() {
            Self::first().tx_stop()
        }

        #[inline(never)]
        pub fn tx_waited() {
            Self::first().wait_for_tx_done()
        }

        #[inline(never)]
        pub fn rx_reset() {
            Self::first().reset_rx()
        }

        #[inline(never)]
        pub fn rx_started(len: usize) {
            Self::first().rx_start(len)
        }

        #[inline(never)]
        pub fn rx_waited() {
            Self::first().wait_for_rx_done()
        }

        #[cfg(esp32)]
        #[inline(never)]
        pub fn set_up_tx(config: &UnitConfig, format: DataFormat) -> Result<(), ConfigError> {
            Self::first().configure_tx(config, format)
        }

        #[cfg(esp32)]
        #[inline(never)]
        pub fn set_up_rx(config: &UnitConfig, format: DataFormat) -> Result<(), ConfigError> {
            Self::first().configure_rx(config, format)
        }

        /// The published driver's two units, opened over chains of so many bytes.
        #[inline(never)]
        pub fn units(
            config: Config,
            tx_limit: u16,
            rx_limit: u16,
        ) -> Result<(I2sTx<'static, Blocking>, I2sRx<'static, Blocking>), ConfigError> {
            let i2s = I2s::new(Self::first(), crate::dma::AnyChannel, config)?;
            let tx = i2s.i2s_tx.build(crate::dma::descriptors(tx_limit));
            let rx = i2s.i2s_rx.build(crate::dma::descriptors(rx_limit));
            Ok((tx, rx))
        }

        #[inline(never)]
        pub fn tx_applied(
            tx: &mut I2sTx<'static, Blocking>,
            config: &UnitConfig,
        ) -> Result<(), ConfigError> {
            tx.apply_config(config)
        }

        #[inline(never)]
        pub fn rx_applied(
            rx: &mut I2sRx<'static, Blocking>,
            config: &UnitConfig,
        ) -> Result<(), ConfigError> {
            rx.apply_config(config)
        }

        /// Begins a transfer of so many bytes, which nothing ends but the two below.
        #[inline(never)]
        pub fn write_begun(tx: &mut I2sTx<'static, Blocking>, len: usize) -> Result<(), Error> {
            tx.write_dma(&crate::dma::OfLength(len)).map(|_| ())
        }

        #[inline(never)]
        pub fn read_begun(rx: &mut I2sRx<'static, Blocking>, len: usize) -> Result<(), Error> {
            rx.read_dma(&mut crate::dma::OfLength(len)).map(|_| ())
        }

        /// A read into words, which is a transfer that is waited for.
        #[inline(never)]
        pub fn words_read(rx: &mut I2sRx<'static, Blocking>, words: &mut [u8]) -> Result<(), Error> {
            rx.read_words(words)
        }

        /// What a transfer does when it is waited for.
        #[inline(never)]
        pub fn write_ended(tx: &mut I2sTx<'static, Blocking>) {
            tx.peripheral_wait_dma(false, true)
        }

        #[inline(never)]
        pub fn read_ended(rx: &mut I2sRx<'static, Blocking>) {
            rx.peripheral_wait_dma(true, false)
        }

        /// What a transfer does when it is stopped.
        #[inline(never)]
        pub fn write_stopped(tx: &mut I2sTx<'static, Blocking>) {
            tx.peripheral_dma_stop()
        }

        #[inline(never)]
        pub fn read_stopped(rx: &mut I2sRx<'static, Blocking>) {
            rx.peripheral_dma_stop()
        }

        /// `Channels::new`; inlined into another crate it would have that crate's overflow checks.
        #[cfg(esp32c3)]
        #[inline(never)]
        pub fn made_channels(count: u8, mask: u16, fill: Option<u32>) -> Channels {
            Channels::new(count, mask, fill)
        }

        /// Channels with the whole mask, past the shift of `Channels::new`.
        #[cfg(esp32c3)]
        #[inline(never)]
        pub fn whole_channels(count: u8, mask: u16, fill: Option<u32>) -> Channels {
            Channels { count, mask, fill }
        }
    };
}

/// Modules that the comparison has no use for.
macro_rules! unstable_module {
    ($($module:tt)*) => {};
}
pub(crate) use unstable_module;

pub mod dma;
pub mod gpio;
pub mod i2s;
pub mod interrupt;
pub mod peripherals;
pub mod system;
pub mod time;
pub mod timer;

mod soc {
    #[cfg_attr(esp32, path = "esp32/mod.rs")]
    #[cfg_attr(esp32c3, path = "esp32c3/mod.rs")]
    mod chip;

    pub(crate) use chip::{constants, pac};
}
pub(crate) use soc::pac;

pub mod private {
    pub trait Sealed {}

    macro_rules! sealed {
        ($($word:ty)*) => { $(impl Sealed for $word {})* };
    }
    sealed!(u8 u16 u32 i8 i16 i32);
}

pub trait DriverMode: private::Sealed {}

pub struct Blocking;
impl private::Sealed for Blocking {}
impl DriverMode for Blocking {}

pub struct Async;
impl private::Sealed for Async {}
impl DriverMode for Async {}

/// Where the comparison looks in.
pub type Window = i2s::AnyI2s<'static>;
