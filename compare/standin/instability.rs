//! Stand-in for the crate `instability`: its attribute leaves the item as it is.
#![no_std]

pub use procmacros::unstable;
