//! Stand-in for the module `i2s`: holds the published driver, and the peripheral of either number.

pub mod master;

pub use any::AnyI2s;

pub mod any {
    use crate::{
        dma::{AnyChannel, DmaEligible, DmaPeripheral},
        peripherals::I2S0,
        private::Sealed,
    };
    #[cfg(soc_has_i2s1)]
    use crate::peripherals::I2S1;

    pub struct AnyI2s<'d>(pub(crate) Inner<'d>);

    pub enum Inner<'d> {
        I2s0(I2S0<'d>),
        #[cfg(soc_has_i2s1)]
        I2s1(I2S1<'d>),
    }

    pub trait Degrade: Sized + Sealed {
        fn degrade<'a>(self) -> AnyI2s<'a>
        where
            Self: 'a;
    }

    impl AnyI2s<'_> {
        pub unsafe fn clone_unchecked(&self) -> Self {
            AnyI2s(match &self.0 {
                Inner::I2s0(i2s) => Inner::I2s0(I2S0(i2s.0)),
                #[cfg(soc_has_i2s1)]
                Inner::I2s1(i2s) => Inner::I2s1(I2S1(i2s.0)),
            })
        }
    }

    impl Sealed for AnyI2s<'_> {}

    impl Degrade for AnyI2s<'_> {
        fn degrade<'a>(self) -> AnyI2s<'a>
        where
            Self: 'a,
        {
            AnyI2s(match self.0 {
                Inner::I2s0(_) => Inner::I2s0(I2S0(core::marker::PhantomData)),
                #[cfg(soc_has_i2s1)]
                Inner::I2s1(_) => Inner::I2s1(I2S1(core::marker::PhantomData)),
            })
        }
    }

    impl DmaEligible for AnyI2s<'_> {
        type Dma = AnyChannel;

        fn dma_peripheral(&self) -> DmaPeripheral {
            DmaPeripheral
        }
    }
}
