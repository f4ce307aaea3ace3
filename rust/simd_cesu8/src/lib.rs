//! Stands for `simd_cesu8` 1.2.0 if another crate depends on it, by `[patch.crates-io]`: it
//! re-exports `cesu8_rattle`, which Cargo.toml names `codec`.
#![no_std]

#[doc(hidden)]
pub use codec::implementation;
pub use codec::*;
