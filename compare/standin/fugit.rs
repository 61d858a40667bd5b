//! Stand-in for the crate `fugit`: rates, instants and durations over one scale, which is all
//! that the published module `time` asks for (rates in hertz, the others in microseconds).
#![no_std]
#![allow(non_snake_case)]

use core::ops::{Add, AddAssign, Div, Mul, Sub, SubAssign};

#[derive(Clone, Copy, PartialEq, Eq, PartialOrd, Ord)]
pub struct Rate<T, const NOM: u32, const DENOM: u32>(T);

impl Rate<u32, 1, 1> {
    pub const fn Hz(value: u32) -> Self {
        Rate(value)
    }

    pub const fn kHz(value: u32) -> Self {
        Rate(value * 1_000)
    }

    pub const fn MHz(value: u32) -> Self {
        Rate(value * 1_000_000)
    }

    pub const fn to_Hz(&self) -> u32 {
        self.0
    }

    pub const fn to_kHz(&self) -> u32 {
        self.0 / 1_000
    }

    pub const fn to_MHz(&self) -> u32 {
        self.0 / 1_000_000
    }
}

impl Div for Rate<u32, 1, 1> {
    type Output = u32;

    fn div(self, by: Self) -> u32 {
        self.0 / by.0
    }
}

impl Mul<u32> for Rate<u32, 1, 1> {
    type Output = Self;

    fn mul(self, by: u32) -> Self {
        Rate(self.0 * by)
    }
}

impl Div<u32> for Rate<u32, 1, 1> {
    type Output = Self;

    fn div(self, by: u32) -> Self {
        Rate(self.0 / by)
    }
}

#[derive(Clone, Copy, PartialEq, Eq, PartialOrd, Ord)]
pub struct Duration<T, const NOM: u32, const DENOM: u32>(T);

type Micros = Duration<u64, 1, 1_000_000>;

impl Micros {
    pub const fn from_ticks(ticks: u64) -> Self {
        Duration(ticks)
    }

    pub const fn micros(value: u64) -> Self {
        Duration(value)
    }

    pub const fn millis(value: u64) -> Self {
        Duration(value * 1_000)
    }

    pub const fn secs(value: u64) -> Self {
        Duration(value * 1_000_000)
    }

    pub const fn minutes(value: u64) -> Self {
        Duration(value * 60_000_000)
    }

    pub const fn hours(value: u64) -> Self {
        Duration(value * 3_600_000_000)
    }

    pub const fn to_micros(&self) -> u64 {
        self.0
    }

    pub const fn to_millis(&self) -> u64 {
        self.0 / 1_000
    }

    pub const fn to_secs(&self) -> u64 {
        self.0 / 1_000_000
    }

    pub const fn to_minutes(&self) -> u64 {
        self.0 / 60_000_000
    }

    pub const fn to_hours(&self) -> u64 {
        self.0 / 3_600_000_000
    }

    pub const fn checked_add(self, more: Self) -> Option<Self> {
        match self.0.checked_add(more.0) {
            Some(ticks) => Some(Duration(ticks)),
            None => None,
        }
    }

    pub const fn checked_sub(self, less: Self) -> Option<Self> {
        match self.0.checked_sub(less.0) {
            Some(ticks) => Some(Duration(ticks)),
            None => None,
        }
    }
}

impl Add for Micros {
    type Output = Self;

    fn add(self, more: Self) -> Self {
        Duration(self.0 + more.0)
    }
}

impl AddAssign for Micros {
    fn add_assign(&mut self, more: Self) {
        self.0 += more.0;
    }
}

impl Sub for Micros {
    type Output = Self;

    fn sub(self, less: Self) -> Self {
        Duration(self.0 - less.0)
    }
}

impl SubAssign for Micros {
    fn sub_assign(&mut self, less: Self) {
        self.0 -= less.0;
    }
}

impl Mul<u32> for Micros {
    type Output = Self;

    fn mul(self, by: u32) -> Self {
        Duration(self.0 * by as u64)
    }
}

impl Div<u32> for Micros {
    type Output = Self;

    fn div(self, by: u32) -> Self {
        Duration(self.0 / by as u64)
    }
}

impl Div for Micros {
    type Output = u64;

    fn div(self, by: Self) -> u64 {
        self.0 / by.0
    }
}

#[derive(Clone, Copy, PartialEq, Eq, PartialOrd, Ord)]
pub struct Instant<T, const NOM: u32, const DENOM: u32>(T);

type Moment = Instant<u64, 1, 1_000_000>;

impl Moment {
    pub const fn from_ticks(ticks: u64) -> Self {
        Instant(ticks)
    }

    pub const fn ticks(&self) -> u64 {
        self.0
    }
}

impl Add<Micros> for Moment {
    type Output = Self;

    fn add(self, more: Micros) -> Self {
        Instant(self.0 + more.0)
    }
}

impl AddAssign<Micros> for Moment {
    fn add_assign(&mut self, more: Micros) {
        self.0 += more.0;
    }
}

impl Sub<Micros> for Moment {
    type Output = Self;

    fn sub(self, less: Micros) -> Self {
        Instant(self.0 - less.0)
    }
}

impl SubAssign<Micros> for Moment {
    fn sub_assign(&mut self, less: Micros) {
        self.0 -= less.0;
    }
}
