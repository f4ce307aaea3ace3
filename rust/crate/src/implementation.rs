//! The kernels, as `simd_cesu8` has them. Their names may change in any version.

/// One byte at a time.
pub mod fallback {
    /// Returns whether some byte is F0 to F7 (hexadecimal).
    #[must_use]
    pub fn contains_utf8_4_byte_char_header(value: &[u8]) -> bool {
        crate::plain::of_cesu8::contains_changed(value)
    }

    /// Returns whether some byte is 00, or F0 to F7 (hexadecimal).
    #[must_use]
    pub fn contains_null_or_utf8_4_byte_char_header(value: &[u8]) -> bool {
        crate::plain::of_mutf8::contains_changed(value)
    }
}

/// With the instructions of the processor.
pub mod active {
    use crate::level;

    /// Returns whether some byte is F0 to F7 (hexadecimal).
    #[must_use]
    pub fn contains_utf8_4_byte_char_header(value: &[u8]) -> bool {
        level::of_cesu8::contains_changed(value)
    }

    /// Returns whether some byte is 00, or F0 to F7 (hexadecimal).
    #[must_use]
    pub fn contains_null_or_utf8_4_byte_char_header(value: &[u8]) -> bool {
        level::of_mutf8::contains_changed(value)
    }
}

/// In `simd_cesu8` a word at a time. Here it is [`active`].
pub mod word {
    pub use super::active::{
        contains_null_or_utf8_4_byte_char_header, contains_utf8_4_byte_char_header,
    };
}

/// In `simd_cesu8` by vectors. Here it is [`active`].
pub mod simd {
    pub use super::active::{
        contains_null_or_utf8_4_byte_char_header, contains_utf8_4_byte_char_header,
    };
}
