//! Stand-in for the crate `bitfield`: reading one bit of a number.
#![no_std]

pub trait Bit {
    fn bit(&self, at: usize) -> bool;
}

impl Bit for u16 {
    fn bit(&self, at: usize) -> bool {
        self >> at & 1 != 0
    }
}
