//! Stand-in for `bitbybit`: records and enums of bits.
#![no_std]

pub use stand_in_macros::{bitenum, bitfield};
