//! Stand-in for the module `dma`: its types and traits, with transfers that do nothing. A descriptor stands for one byte, so a
//! chain refuses a transfer that is longer than the chain.

use core::{marker::PhantomData, ptr::NonNull};

use crate::{Async, Blocking, DriverMode};

#[derive(Debug, Clone, Copy, PartialEq)]
pub struct DmaError;

pub struct DmaDescriptor;

pub struct DmaPeripheral;

/// A channel of any number, and its halves.
pub struct AnyChannel;
pub struct AnyRx;
pub struct AnyTx;

pub trait DmaChannel: Sized {
    type Rx;
    type Tx;
}

impl DmaChannel for AnyChannel {
    type Rx = AnyRx;
    type Tx = AnyTx;
}

pub trait DmaEligible {
    type Dma: DmaChannel;

    fn dma_peripheral(&self) -> DmaPeripheral;
}

pub type PeripheralDmaChannel<T> = <T as DmaEligible>::Dma;
pub type PeripheralRxChannel<T> = <PeripheralDmaChannel<T> as DmaChannel>::Rx;
pub type PeripheralTxChannel<T> = <PeripheralDmaChannel<T> as DmaChannel>::Tx;

pub trait DmaChannelFor<P: DmaEligible>: DmaChannel {
    fn degrade(self) -> PeripheralDmaChannel<P>;
}

impl<P: DmaEligible<Dma = AnyChannel>> DmaChannelFor<P> for AnyChannel {
    fn degrade(self) -> AnyChannel {
        self
    }
}

pub struct ChannelRx<Dm: DriverMode, CH>(PhantomData<(Dm, CH)>);

pub struct ChannelTx<Dm: DriverMode, CH>(PhantomData<(Dm, CH)>);

macro_rules! half {
    ($name:ident) => {
        impl<Dm: DriverMode, CH> $name<Dm, CH> {
            pub unsafe fn prepare_transfer_without_start(
                &mut self,
                _peripheral: DmaPeripheral,
                _chain: &DescriptorChain,
            ) -> Result<(), DmaError> {
                Ok(())
            }

            pub fn start_transfer(&mut self) -> Result<(), DmaError> {
                Ok(())
            }
        }

        impl<CH> $name<Blocking, CH> {
            pub fn into_async(self) -> $name<Async, CH> {
                $name(PhantomData)
            }
        }
    };
}
half!(ChannelRx);
half!(ChannelTx);

pub struct Channel<Dm: DriverMode, CH: DmaChannel> {
    pub rx: ChannelRx<Dm, CH::Rx>,
    pub tx: ChannelTx<Dm, CH::Tx>,
}

impl<CH: DmaChannel> Channel<Blocking, CH> {
    pub fn new(_channel: CH) -> Self {
        Channel { rx: ChannelRx(PhantomData), tx: ChannelTx(PhantomData) }
    }

    pub fn runtime_ensure_compatible(&self, _peripheral: &impl DmaEligible) {}
}

pub struct DescriptorChain(&'static mut [DmaDescriptor]);

impl DescriptorChain {
    pub fn new(descriptors: &'static mut [DmaDescriptor]) -> Self {
        DescriptorChain(descriptors)
    }

    pub unsafe fn fill_for_tx(
        &mut self,
        _circular: bool,
        _data: *const u8,
        len: usize,
    ) -> Result<(), DmaError> {
        self.fill(len)
    }

    pub unsafe fn fill_for_rx(
        &mut self,
        _circular: bool,
        _data: *mut u8,
        len: usize,
    ) -> Result<(), DmaError> {
        self.fill(len)
    }

    fn fill(&self, len: usize) -> Result<(), DmaError> {
        if len > self.0.len() { Err(DmaError) } else { Ok(()) }
    }
}

/// So many descriptors, which take no room.
pub fn descriptors(count: u16) -> &'static mut [DmaDescriptor] {
    Vec::from_iter((0..count).map(|_| DmaDescriptor)).leak()
}

pub unsafe trait ReadBuffer {
    unsafe fn read_buffer(&self) -> (*const u8, usize);
}

unsafe impl ReadBuffer for &[u8] {
    unsafe fn read_buffer(&self) -> (*const u8, usize) {
        (self.as_ptr(), self.len())
    }
}

pub unsafe trait WriteBuffer {
    unsafe fn write_buffer(&mut self) -> (*mut u8, usize);
}

unsafe impl WriteBuffer for &mut [u8] {
    unsafe fn write_buffer(&mut self) -> (*mut u8, usize) {
        (self.as_mut_ptr(), self.len())
    }
}

/// A buffer of so many bytes, which no transfer reads or writes.
pub struct OfLength(pub usize);

unsafe impl ReadBuffer for OfLength {
    unsafe fn read_buffer(&self) -> (*const u8, usize) {
        (NonNull::dangling().as_ptr(), self.0)
    }
}

unsafe impl WriteBuffer for OfLength {
    unsafe fn write_buffer(&mut self) -> (*mut u8, usize) {
        (NonNull::dangling().as_ptr(), self.0)
    }
}

pub mod dma_private {
    use super::{ChannelRx, ChannelTx, DescriptorChain, DriverMode};

    pub trait DmaSupport {
        type DriverMode: DriverMode;

        fn peripheral_wait_dma(&mut self, is_rx: bool, is_tx: bool);
        fn peripheral_dma_stop(&mut self);
    }

    pub trait DmaSupportTx: DmaSupport {
        type Channel;

        fn tx(&mut self) -> &mut ChannelTx<Self::DriverMode, Self::Channel>;
        fn chain(&mut self) -> &mut DescriptorChain;
    }

    pub trait DmaSupportRx: DmaSupport {
        type Channel;

        fn rx(&mut self) -> &mut ChannelRx<Self::DriverMode, Self::Channel>;
        fn chain(&mut self) -> &mut DescriptorChain;
    }
}

macro_rules! transfers {
    ($($name:ident)*) => { $(
        pub struct $name<'a, I>(&'a mut I);

        impl<'a, I> $name<'a, I> {
            pub fn new(instance: &'a mut I) -> Self {
                $name(instance)
            }
        }
    )* };
}
transfers!(DmaTransferRx DmaTransferRxCircular DmaTransferTx DmaTransferTxCircular);

pub struct TxCircularState {
    pub available: usize,
}

impl TxCircularState {
    pub fn new(_chain: &mut DescriptorChain) -> Self {
        TxCircularState { available: 0 }
    }

    pub fn update<Dm: DriverMode, CH>(
        &mut self,
        _channel: &ChannelTx<Dm, CH>,
    ) -> Result<(), DmaError> {
        Ok(())
    }

    pub fn push(&mut self, data: &[u8]) -> Result<usize, DmaError> {
        Ok(data.len())
    }

    pub fn push_with(&mut self, f: impl FnOnce(&mut [u8]) -> usize) -> Result<usize, DmaError> {
        Ok(f(&mut []))
    }
}

pub struct RxCircularState {
    pub available: usize,
}

impl RxCircularState {
    pub fn new(_chain: &mut DescriptorChain) -> Self {
        RxCircularState { available: 0 }
    }

    pub fn update(&mut self) -> Result<(), DmaError> {
        Ok(())
    }

    pub fn pop(&mut self, data: &mut [u8]) -> Result<usize, DmaError> {
        Ok(data.len())
    }
}

pub mod asynch {
    use core::{
        future::Future,
        pin::Pin,
        task::{Context, Poll},
    };

    use super::{Async, ChannelRx, ChannelTx, DmaError};

    macro_rules! futures {
        ($($name:ident $field:ident $channel:ident)*) => { $(
            pub struct $name<'a, CH> {
                pub $field: &'a mut $channel<Async, CH>,
            }

            impl<'a, CH> $name<'a, CH> {
                pub fn new($field: &'a mut $channel<Async, CH>) -> Self {
                    $name { $field }
                }
            }

            impl<CH> Future for $name<'_, CH> {
                type Output = Result<(), DmaError>;

                fn poll(self: Pin<&mut Self>, _: &mut Context<'_>) -> Poll<Self::Output> {
                    Poll::Ready(Ok(()))
                }
            }
        )* };
    }
    futures! {
        DmaRxFuture rx ChannelRx
        DmaRxDoneChFuture rx ChannelRx
        DmaTxFuture tx ChannelTx
        DmaTxDoneChFuture tx ChannelTx
    }
}
