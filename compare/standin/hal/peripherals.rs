//! Stand-in for the module `peripherals`: the peripherals that the published sources name.

use core::marker::PhantomData;

use crate::{
    dma::{AnyChannel, DmaEligible, DmaPeripheral},
    i2s::any::{AnyI2s, Degrade, Inner},
    interrupt::{IsrCallback, Priority},
    private::Sealed,
};

macro_rules! i2s {
    ($name:ident, $block:ident, $variant:ident) => {
        pub struct $name<'d>(pub(crate) PhantomData<&'d ()>);

        impl $name<'_> {
            pub const PTR: *const crate::pac::$block::RegisterBlock =
                &crate::pac::$block::RegisterBlock;

            pub fn bind_peri_interrupt(&self, _handler: IsrCallback) {}
            pub fn disable_peri_interrupt(&self) {}
            pub fn enable_peri_interrupt(&self, _priority: Priority) {}
        }

        impl Sealed for $name<'_> {}

        impl Degrade for $name<'_> {
            fn degrade<'a>(self) -> AnyI2s<'a>
            where
                Self: 'a,
            {
                AnyI2s(Inner::$variant($name(PhantomData)))
            }
        }

        impl DmaEligible for $name<'_> {
            type Dma = AnyChannel;

            fn dma_peripheral(&self) -> DmaPeripheral {
                DmaPeripheral
            }
        }
    };
}

i2s!(I2S0, i2s0, I2s0);
#[cfg(soc_has_i2s1)]
i2s!(I2S1, i2s1, I2s1);

#[cfg(esp32)]
mod old_chip {
    use super::PhantomData;
    use crate::{
        gpio::interconnect::{OutputSignal, PeripheralOutput},
        pac,
    };

    pub struct IO_MUX;

    impl IO_MUX {
        pub fn regs() -> &'static pac::io_mux::RegisterBlock {
            &pac::io_mux::RegisterBlock
        }
    }

    pub struct TIMG0;

    impl TIMG0 {
        pub fn regs() -> &'static pac::timg0::RegisterBlock {
            &pac::timg0::RegisterBlock
        }
    }

    macro_rules! pins {
        ($($name:ident)*) => { $(
            pub struct $name<'d>(PhantomData<&'d ()>);

            impl<'d> From<$name<'d>> for OutputSignal<'d> {
                fn from(_: $name<'d>) -> Self {
                    OutputSignal(PhantomData)
                }
            }

            impl<'d> PeripheralOutput<'d> for $name<'d> {}
        )* };
    }
    pins!(GPIO0 GPIO1 GPIO3);
}

#[cfg(esp32)]
pub use old_chip::*;
