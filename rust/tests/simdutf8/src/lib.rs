//! The part of simdutf8's API that the crate cesu8_rattle (rust/crate) uses, over `core`. It takes
//! the place of simdutf8 in tests/rust.sh, since the tests use no registry.
#![no_std]

pub mod basic {
    /// The bytes are not UTF-8.
    #[derive(Clone, Copy, Debug, PartialEq, Eq)]
    pub struct Utf8Error;

    /// Returns bytes that are UTF-8 as a text.
    pub fn from_utf8(bytes: &[u8]) -> Result<&str, Utf8Error> {
        core::str::from_utf8(bytes).map_err(|_| Utf8Error)
    }
}
