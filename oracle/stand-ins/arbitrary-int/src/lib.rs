//! Stand-in for `arbitrary-int`: unsigned numbers of a width, in the next machine type.
#![no_std]
#![forbid(unsafe_code)]
#![allow(non_camel_case_types)]

use core::fmt;

/// A number of `BITS` bits, kept in a `T`.
#[derive(Copy, Clone, Default, PartialEq, Eq, PartialOrd, Ord, Hash)]
pub struct UInt<T, const BITS: usize> {
    value: T,
}

impl<T: fmt::Debug, const BITS: usize> fmt::Debug for UInt<T, BITS> {
    fn fmt(&self, f: &mut fmt::Formatter<'_>) -> fmt::Result {
        self.value.fmt(f)
    }
}

pub mod traits {
    /// What all widths have in common.
    pub trait Integer: Copy {
        fn as_u8(self) -> u8;
        fn as_u16(self) -> u16;
    }
}

macro_rules! kept_in {
    ($($T:ty),*) => {$(
        impl<const BITS: usize> UInt<$T, BITS> {
            pub const MAX: Self = Self { value: <$T>::MAX >> (<$T>::BITS as usize - BITS) };

            /// Panics if the value is outside of the width, in every build.
            pub const fn new(value: $T) -> Self {
                assert!(value <= Self::MAX.value);
                Self { value }
            }

            pub const fn value(self) -> $T {
                self.value
            }
        }

        impl<const BITS: usize> traits::Integer for UInt<$T, BITS> {
            fn as_u8(self) -> u8 {
                self.value as u8
            }

            fn as_u16(self) -> u16 {
                self.value as u16
            }
        }
    )*};
}

kept_in!(u8, u16);

pub type u1 = UInt<u8, 1>;
pub type u2 = UInt<u8, 2>;
pub type u3 = UInt<u8, 3>;
pub type u4 = UInt<u8, 4>;
pub type u11 = UInt<u16, 11>;
pub type u14 = UInt<u16, 14>;

pub mod prelude {
    pub use crate::traits::Integer;
    pub use crate::{UInt, u1, u2, u3, u4, u11, u14};
}
