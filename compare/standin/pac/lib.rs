//! Stand-in for the crates `esp32` and `esp32c3`, which give the registers of a chip by name.
//!
//! No register is reached and no number kept. Reads, puts and writes are told to the recorder, by
//! name and in their order; every put of the driver goes through `W::put`. A field that is read holds
//! what the recorder finds, a register as a whole 0.
#![no_std]

use core::marker::PhantomData;

use recorder::{Event, found, note};

/// A register's name.
pub trait Named {
    const NAME: &'static str;
}

/// One register; `S` stands for its name and decides which fields it has.
pub struct Register<S>(PhantomData<S>);

/// What a read of the register gave.
pub struct R<S>(PhantomData<S>);

/// What is about to be written to the register.
pub struct W<S>(PhantomData<S>);

/// A field of the value about to be written, holding a `T`; with its name.
pub struct FieldW<'a, S, T>(&'a mut W<S>, &'static str, PhantomData<T>);

/// A field of the value read, holding a `T`.
pub struct FieldR<T>(T);

impl<S: Named> Register<S> {
    pub fn read(&self) -> R<S> {
        note(Event::Read { register: S::NAME });
        R(PhantomData)
    }

    pub fn write(&self, change: impl FnOnce(&mut W<S>) -> &mut W<S>) {
        change(&mut W(PhantomData));
        note(Event::Written { register: S::NAME });
    }

    pub fn modify(&self, change: impl for<'w> FnOnce(&R<S>, &'w mut W<S>) -> &'w mut W<S>) {
        let before = self.read();
        self.write(|next| change(&before, next));
    }
}

impl<S: Named> R<S> {
    pub fn bits(&self) -> u32 {
        0
    }

    fn bit(&self, field: &'static str) -> FieldR<bool> {
        FieldR(found(S::NAME, field) != 0)
    }
}

impl<S: Named> W<S> {
    pub fn bits(&mut self, value: u32) -> &mut Self {
        self.put("bits", value)
    }

    fn put(&mut self, field: &'static str, value: u32) -> &mut Self {
        note(Event::Put { register: S::NAME, field, value });
        self
    }
}

impl<'a, S: Named, T: Into<u32>> FieldW<'a, S, T> {
    pub fn bits(self, value: T) -> &'a mut W<S> {
        self.0.put(self.1, value.into())
    }
}

impl<'a, S: Named> FieldW<'a, S, bool> {
    pub fn bit(self, value: bool) -> &'a mut W<S> {
        self.0.put(self.1, value.into())
    }

    pub fn set_bit(self) -> &'a mut W<S> {
        self.bit(true)
    }

    pub fn clear_bit(self) -> &'a mut W<S> {
        self.bit(false)
    }

    pub fn clear_bit_by_one(self) -> &'a mut W<S> {
        self.bit(true)
    }
}

/// How a field of this kind is read; of the driver's all are bits.
trait Found: Sized {
    fn field<S: Named>(register: &R<S>, name: &'static str) -> FieldR<Self>;
}

impl Found for bool {
    fn field<S: Named>(register: &R<S>, name: &'static str) -> FieldR<bool> {
        register.bit(name)
    }
}

macro_rules! wide {
    ($($kind:ty)*) => { $(impl Found for $kind {
        fn field<S: Named>(_: &R<S>, _: &'static str) -> FieldR<$kind> {
            FieldR(0)
        }
    })* };
}
wide!(u8 u16 u32);

impl<T: Copy> FieldR<T> {
    pub fn bits(&self) -> T {
        self.0
    }
}

impl FieldR<bool> {
    pub fn bit(&self) -> bool {
        self.0
    }

    pub fn bit_is_set(&self) -> bool {
        self.0
    }

    pub fn bit_is_clear(&self) -> bool {
        !self.0
    }
}

/// Writes out a block of registers from the names of its registers and of their fields.
macro_rules! block {
    ($block:ident { $($register:ident { $($($field:ident)*: $kind:ty),* })* }) => {
        pub mod $block {
            pub struct RegisterBlock;

            impl RegisterBlock {
                $(pub fn $register(&self) -> crate::Register<$register::Spec> {
                    crate::Register(core::marker::PhantomData)
                })*
            }

            $(pub mod $register {
                pub struct Spec;

                impl crate::Named for Spec {
                    const NAME: &'static str = stringify!($register);
                }

                impl crate::W<Spec> {
                    $($(pub fn $field(&mut self) -> crate::FieldW<'_, Spec, $kind> {
                        crate::FieldW(self, stringify!($field), core::marker::PhantomData)
                    })*)*
                }

                impl crate::R<Spec> {
                    $($(pub fn $field(&self) -> crate::FieldR<$kind> {
                        <$kind as crate::Found>::field(self, stringify!($field))
                    })*)*
                }
            })*
        }
    };
}

#[cfg_attr(esp32, path = "esp32.rs")]
#[cfg_attr(esp32c3, path = "esp32c3.rs")]
mod chip;

pub use chip::*;
