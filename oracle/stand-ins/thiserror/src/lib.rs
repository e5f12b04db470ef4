//! Stand-in for `thiserror`: the conversions of `#[from]`. Messages are not made.
#![no_std]

pub use stand_in_macros::Error;
