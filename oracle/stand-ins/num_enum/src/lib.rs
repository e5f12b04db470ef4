//! Stand-in for `num_enum`: enums from and to their numbers.
#![no_std]

pub use stand_in_macros::{IntoPrimitive, TryFromPrimitive};

/// No case has this number.
#[derive(Debug, Copy, Clone, PartialEq, Eq)]
pub struct TryFromPrimitiveError {
    pub number: u8,
}
