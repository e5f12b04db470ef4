//! Stand-in for `zerocopy`: records of octets and 16-bit numbers in network order.
#![no_std]

pub use byteorder::NetworkEndian;
use core::marker::PhantomData;
use core::mem::{align_of, size_of};
pub use stand_in_macros::{FromBytes, Immutable, IntoBytes, Unaligned};

pub mod byteorder {
    /// Most significant octet first.
    #[derive(Debug, Copy, Clone, PartialEq, Eq)]
    pub struct NetworkEndian;
}

/// The octets are not as many as the record has.
#[derive(Debug)]
pub struct SizeError;

/// A 16-bit number as two octets; only network order is there.
#[derive(Debug, Copy, Clone, PartialEq, Eq)]
#[repr(transparent)]
pub struct U16<O> {
    octets: [u8; 2],
    order: PhantomData<O>,
}

impl From<u16> for U16<NetworkEndian> {
    fn from(value: u16) -> Self {
        Self {
            octets: value.to_be_bytes(),
            order: PhantomData,
        }
    }
}

impl U16<NetworkEndian> {
    pub fn get(self) -> u16 {
        u16::from_be_bytes(self.octets)
    }
}

/// Records that any octets of their size make.
pub trait FromBytes: Sized {
    /// Takes the record from the front, and leaves the rest.
    #[doc(hidden)]
    fn take(octets: &mut &[u8]) -> Self;

    fn read_from_bytes(octets: &[u8]) -> Result<Self, SizeError> {
        if octets.len() != size_of::<Self>() {
            return Err(SizeError);
        }
        let mut rest = octets;
        Ok(Self::take(&mut rest))
    }
}

impl FromBytes for u8 {
    fn take(octets: &mut &[u8]) -> Self {
        let first = octets[0];
        *octets = &octets[1..];
        first
    }
}

impl FromBytes for U16<NetworkEndian> {
    fn take(octets: &mut &[u8]) -> Self {
        let (high, low) = (u8::take(octets), u8::take(octets));
        Self::from(u16::from_be_bytes([high, low]))
    }
}

/// Records that are their octets, one after the other.
pub trait IntoBytes: Sized {
    /// How many octets the fields have together.
    #[doc(hidden)]
    const OCTETS: usize;

    fn as_bytes(&self) -> &[u8] {
        const {
            assert!(size_of::<Self>() == Self::OCTETS && align_of::<Self>() == 1);
        }
        // All fields are octets, and by the line above there is nothing between them.
        unsafe { core::slice::from_raw_parts((self as *const Self).cast(), size_of::<Self>()) }
    }

    fn write_to(&self, target: &mut [u8]) -> Result<(), SizeError> {
        if target.len() != size_of::<Self>() {
            return Err(SizeError);
        }
        target.copy_from_slice(self.as_bytes());
        Ok(())
    }
}

impl IntoBytes for u8 {
    const OCTETS: usize = 1;
}

impl IntoBytes for U16<NetworkEndian> {
    const OCTETS: usize = 2;
}
