//! Stand-in for the crate `commonware_utils`: casts that lose nothing.

use std::num::NonZeroU16;

pub trait Widen<T> {
    fn widen(self) -> T;
}

impl Widen<u64> for NonZeroU16 {
    fn widen(self) -> u64 {
        u64::from(self.get())
    }
}

impl Widen<usize> for NonZeroU16 {
    fn widen(self) -> usize {
        usize::from(self.get())
    }
}

impl Widen<u64> for usize {
    fn widen(self) -> u64 {
        self as u64
    }
}
