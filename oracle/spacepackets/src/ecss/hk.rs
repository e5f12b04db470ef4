//! Empty: this module of the crate is not at hand.
