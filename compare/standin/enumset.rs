//! Stand-in for the crate `enumset`: a set of the variants of a plain enum, kept as a mask.
#![no_std]

pub use procmacros::EnumSetType;

pub trait EnumSetType: Copy + 'static {
    const ALL: &'static [Self];
    fn index(self) -> u32;
}

#[derive(Clone, Copy, PartialEq, Eq)]
pub struct EnumSet<T: EnumSetType> {
    mask: u32,
    of: core::marker::PhantomData<T>,
}

impl<T: EnumSetType> EnumSet<T> {
    pub fn new() -> Self {
        EnumSet { mask: 0, of: core::marker::PhantomData }
    }

    pub fn insert(&mut self, one: T) -> bool {
        let fresh = !self.contains(one);
        self.mask |= 1 << one.index();
        fresh
    }

    pub fn contains(&self, one: T) -> bool {
        self.mask >> one.index() & 1 != 0
    }
}

impl<T: EnumSetType> From<T> for EnumSet<T> {
    fn from(one: T) -> Self {
        let mut set = EnumSet::new();
        set.insert(one);
        set
    }
}

/// Gives the members in the order of their declaration.
pub struct Members<T: EnumSetType> {
    set: EnumSet<T>,
    next: usize,
}

impl<T: EnumSetType> Iterator for Members<T> {
    type Item = T;

    fn next(&mut self) -> Option<T> {
        while let Some(&one) = T::ALL.get(self.next) {
            self.next += 1;
            if self.set.contains(one) {
                return Some(one);
            }
        }
        None
    }
}

impl<T: EnumSetType> IntoIterator for EnumSet<T> {
    type Item = T;
    type IntoIter = Members<T>;

    fn into_iter(self) -> Members<T> {
        Members { set: self, next: 0 }
    }
}
