//! CESU-8 and Modified UTF-8 (MUTF-8): a drop-in for `simd_cesu8` 1.2, from a proved library.
//!
//! Both encodings write each UTF-16 code unit of a string separately. A character with four bytes
//! in UTF-8 becomes a surrogate pair of three bytes each. MUTF-8 also writes U+0000 as C0 80.
//! CESU-8 is that of Unicode Technical Report 26, MUTF-8 that of Java's `DataInput`, class files
//! and JNI. The calls at the root are for CESU-8, those of [`mutf8`] for MUTF-8.
//!
//! A result borrows the input if and only if no byte changes. Otherwise it takes one allocation,
//! and input that is rejected takes none.
//!
//! ```
//! use std::borrow::Cow;
//!
//! let text = "caf\u{E9} \u{1F496}";
//! let encoded = simd_cesu8::encode(text);
//! assert_eq!(*encoded, *b"caf\xC3\xA9 \xED\xA0\xBD\xED\xB2\x96");
//! assert_eq!(simd_cesu8::decode(&encoded)?, text);
//!
//! assert!(matches!(simd_cesu8::encode("caf\u{E9}"), Cow::Borrowed(_)));
//! # Ok::<(), simd_cesu8::DecodingError>(())
//! ```
//!
//! What `simd_cesu8` 1.2.0 lacks: [`encoded_len`], [`decoded_len`], [`lossy_len`], [`valid_up_to`],
//! [`utf16_len`], [`compare_as_utf16`], the calls that write to a slice, and [`java`].
#![cfg_attr(not(feature = "std"), no_std)]
#![warn(missing_docs)]

extern crate alloc;

mod error;
#[doc(hidden)]
pub mod implementation;
pub mod java;
mod level;
pub mod mutf8;
mod panics;
// In some builds, such as one for aarch64 or x86-64-v3, only the tests use this.
#[cfg_attr(not(test), allow(dead_code))]
mod plain;
mod short;
#[cfg(test)]
mod tests;
mod utf8;

use alloc::borrow::Cow;
use alloc::vec::Vec;
use core::cmp::Ordering;

pub use self::error::{DecodingError, SliceError};

/// Returns whether the CESU-8 of a string differs from its UTF-8: whether a character is U+10000 or
/// above.
///
/// ```
/// assert!(!simd_cesu8::needs_encoded("caf\u{E9}"));
/// assert!(simd_cesu8::needs_encoded("\u{1F496}"));
/// ```
#[must_use]
#[inline]
pub fn needs_encoded(value: &str) -> bool {
    !short::is_unchanged::<false>(value) && level::of_cesu8::contains_changed(value.as_bytes())
}

/// Encodes a string to CESU-8.
///
/// It borrows the string's bytes if they are its CESU-8. Otherwise it allocates exactly the length
/// of the CESU-8.
///
/// ```
/// use std::borrow::Cow;
///
/// assert!(matches!(simd_cesu8::encode("caf\u{E9}"), Cow::Borrowed(b"caf\xC3\xA9")));
/// assert_eq!(*simd_cesu8::encode("\u{10400}"), *b"\xED\xA0\x81\xED\xB0\x80");
/// ```
///
/// # Panics
///
/// If the CESU-8 has more than `isize::MAX` bytes.
#[must_use]
#[inline]
pub fn encode(value: &str) -> Cow<'_, [u8]> {
    if short::is_unchanged::<false>(value) {
        return Cow::Borrowed(value.as_bytes());
    }
    level::of_cesu8::encode(value)
}

/// Appends the CESU-8 of a string to a buffer.
///
/// It allocates once if the buffer's capacity is too small.
///
/// ```
/// let mut buf = b"id=".to_vec();
/// simd_cesu8::encode_into("\u{1F496}", &mut buf);
/// assert_eq!(buf, b"id=\xED\xA0\xBD\xED\xB2\x96");
/// ```
///
/// # Panics
///
/// If the buffer would have more than `isize::MAX` bytes.
#[inline]
pub fn encode_into(value: &str, buf: &mut Vec<u8>) {
    level::of_cesu8::encode_into(value, buf);
}

/// Decodes CESU-8 strictly: returns the string whose CESU-8 the bytes are.
///
/// It borrows the bytes if they are the string's UTF-8. Otherwise it allocates at most their
/// length, once.
///
/// ```
/// assert_eq!(simd_cesu8::decode_strict(b"\xED\xA0\xBD\xED\xB2\x96")?, "\u{1F496}");
/// assert!(simd_cesu8::decode_strict("\u{1F496}".as_bytes()).is_err());
/// # Ok::<(), simd_cesu8::DecodingError>(())
/// ```
///
/// # Errors
///
/// [`DecodingError`] if the bytes are not the CESU-8 of a string: they are damaged, or have an
/// unpaired surrogate, an overlong form, or a character of four bytes. It is returned before memory
/// is allocated.
#[inline]
pub fn decode_strict(bytes: &[u8]) -> Result<Cow<'_, str>, DecodingError> {
    if let Some(text) = short::ascii::<false>(bytes) {
        return Ok(Cow::Borrowed(text));
    }
    level::of_cesu8::decode_strict(bytes)
}

/// Decodes bytes that are UTF-8 as a whole, or else CESU-8. It reads no input partly as one and
/// partly as the other.
///
/// It borrows the bytes if they are UTF-8. Otherwise it allocates at most their length, once.
///
/// ```
/// assert_eq!(simd_cesu8::decode("\u{1F496}".as_bytes())?, "\u{1F496}");
/// assert_eq!(simd_cesu8::decode(b"\xED\xA0\xBD\xED\xB2\x96")?, "\u{1F496}");
/// # Ok::<(), simd_cesu8::DecodingError>(())
/// ```
///
/// # Errors
///
/// [`DecodingError`] if the bytes are neither UTF-8 nor the CESU-8 of a string. It is returned
/// before memory is allocated.
#[inline]
pub fn decode(bytes: &[u8]) -> Result<Cow<'_, str>, DecodingError> {
    match short::lenient::<false>(bytes) {
        Some(result) => result.map(Cow::Borrowed),
        None => level::of_cesu8::decode(bytes),
    }
}

/// Decodes CESU-8 that may be damaged: each encoded character, and U+FFFD for each byte in none.
///
/// It borrows the bytes if they are the string's UTF-8. Otherwise it allocates exactly the string's
/// length.
///
/// ```
/// assert_eq!(simd_cesu8::decode_lossy_strict(b"\xE2\x82A"), "\u{FFFD}\u{FFFD}A");
/// ```
///
/// # Panics
///
/// If the string has more than `isize::MAX` bytes: at most three for each byte of the input.
#[must_use]
#[inline]
pub fn decode_lossy_strict(bytes: &[u8]) -> Cow<'_, str> {
    if let Some(text) = short::ascii::<false>(bytes) {
        return Cow::Borrowed(text);
    }
    level::of_cesu8::decode_lossy_strict(bytes)
}

/// Decodes bytes that are UTF-8 as a whole, or else CESU-8 that may be damaged, with U+FFFD for
/// each byte in no encoded character.
///
/// It borrows the bytes if they are UTF-8. Otherwise it allocates exactly the string's length.
///
/// ```
/// assert_eq!(simd_cesu8::decode_lossy("\u{1F496}".as_bytes()), "\u{1F496}");
/// // The bytes are not UTF-8 as a whole, and in CESU-8 no character has four bytes.
/// assert_eq!(simd_cesu8::decode_lossy(b"\xF0\x9F\x92\x96\xFF"), "\u{FFFD}".repeat(5));
/// ```
///
/// # Panics
///
/// If the string has more than `isize::MAX` bytes: at most three for each byte of the input.
#[must_use]
#[inline]
pub fn decode_lossy(bytes: &[u8]) -> Cow<'_, str> {
    match short::lenient::<false>(bytes) {
        Some(Ok(text)) => Cow::Borrowed(text),
        _ => level::of_cesu8::decode_lossy(bytes),
    }
}

/// Returns the length in bytes of the CESU-8 of a string.
///
/// ```
/// assert_eq!(simd_cesu8::encoded_len("a\u{10FFFF}"), 7);
/// ```
#[must_use]
#[inline]
pub fn encoded_len(value: &str) -> usize {
    level::of_cesu8::encoded_len(value)
}

/// Returns the length in bytes of the string that [`decode_strict`] returns, or `None` if that is
/// an error.
///
/// ```
/// assert_eq!(simd_cesu8::decoded_len(b"\xED\xA0\xBD\xED\xB2\x96"), Some(4));
/// assert_eq!(simd_cesu8::decoded_len(b"\xED\xA0\xBD"), None);
/// ```
#[must_use]
#[inline]
pub fn decoded_len(bytes: &[u8]) -> Option<usize> {
    level::of_cesu8::decoded_len(bytes)
}

/// Returns the length in bytes of the string that [`decode_lossy_strict`] returns, or `None` if it
/// exceeds `usize`.
///
/// ```
/// assert_eq!(simd_cesu8::lossy_len(b"\xE2\x82A"), Some(7));
/// ```
#[must_use]
#[inline]
pub fn lossy_len(bytes: &[u8]) -> Option<usize> {
    level::of_cesu8::lossy_len(bytes)
}

/// Returns how many bytes at the start are whole encoded characters: the offset of the first
/// damage, or the length.
///
/// ```
/// assert_eq!(simd_cesu8::valid_up_to(b"id=\xED\xA0\xBD\xED\xB2\x96\xFF"), 9);
/// ```
#[must_use]
#[inline]
pub fn valid_up_to(bytes: &[u8]) -> usize {
    level::of_cesu8::valid_up_to(bytes)
}

/// Encodes a string to CESU-8, in a slice. It returns how many bytes it wrote at the start; the
/// rest is unchanged.
///
/// ```
/// let mut buf = [0xEE; 8];
/// assert_eq!(simd_cesu8::encode_to_slice("\u{10400}", &mut buf)?, 6);
/// assert_eq!(buf, *b"\xED\xA0\x81\xED\xB0\x80\xEE\xEE");
/// # Ok::<(), simd_cesu8::SliceError>(())
/// ```
///
/// # Errors
///
/// [`SliceError::TooShort`] with the length of the CESU-8, if the slice is shorter. It is then
/// unchanged.
#[inline]
pub fn encode_to_slice(value: &str, buf: &mut [u8]) -> Result<usize, SliceError> {
    level::of_cesu8::encode_to_slice(value, buf)
}

/// Decodes CESU-8 as [`decode_strict`] does, and writes the string to a slice. It returns how many
/// bytes it wrote at the start; the rest is unchanged.
///
/// ```
/// let mut buf = [0xEE; 6];
/// assert_eq!(simd_cesu8::decode_strict_to_slice(b"\xED\xA0\xBD\xED\xB2\x96", &mut buf)?, 4);
/// assert_eq!(buf, *b"\xF0\x9F\x92\x96\xEE\xEE");
/// # Ok::<(), simd_cesu8::SliceError>(())
/// ```
///
/// # Errors
///
/// [`SliceError::Invalid`] if [`decode_strict`] returns an error, and [`SliceError::TooShort`] with
/// the string's length if the slice is shorter. The slice is then unchanged.
#[inline]
pub fn decode_strict_to_slice(bytes: &[u8], buf: &mut [u8]) -> Result<usize, SliceError> {
    if let Some(result) = short::copy_ascii::<false>(bytes, buf) {
        return result;
    }
    level::of_cesu8::decode_strict_to_slice(bytes, buf)
}

/// Decodes UTF-8 or CESU-8 as [`decode`] does, and writes the string to a slice. It returns how
/// many bytes it wrote at the start; the rest is unchanged.
///
/// ```
/// let mut buf = [0xEE; 6];
/// assert_eq!(simd_cesu8::decode_to_slice("\u{1F496}".as_bytes(), &mut buf)?, 4);
/// assert_eq!(buf, *b"\xF0\x9F\x92\x96\xEE\xEE");
/// # Ok::<(), simd_cesu8::SliceError>(())
/// ```
///
/// # Errors
///
/// [`SliceError::Invalid`] if [`decode`] returns an error, and [`SliceError::TooShort`] with the
/// string's length if the slice is shorter. The slice is then unchanged.
#[inline]
pub fn decode_to_slice(bytes: &[u8], buf: &mut [u8]) -> Result<usize, SliceError> {
    short::lenient_to_slice(bytes, buf, decode_strict_to_slice)
}

/// Decodes CESU-8 as [`decode_lossy_strict`] does, and writes the string to a slice. It returns how
/// many bytes it wrote at the start; the rest is unchanged.
///
/// ```
/// let mut buf = [0xEE; 6];
/// assert_eq!(simd_cesu8::decode_lossy_strict_to_slice(b"a\xFF", &mut buf)?, 4);
/// assert_eq!(buf, *b"a\xEF\xBF\xBD\xEE\xEE");
/// # Ok::<(), simd_cesu8::SliceError>(())
/// ```
///
/// # Errors
///
/// [`SliceError::TooShort`] with the string's length if the slice is shorter, and
/// [`SliceError::TooLong`] if that exceeds `usize`. The slice is then unchanged.
#[inline]
pub fn decode_lossy_strict_to_slice(bytes: &[u8], buf: &mut [u8]) -> Result<usize, SliceError> {
    if let Some(result) = short::copy_ascii::<false>(bytes, buf) {
        return result;
    }
    level::of_cesu8::decode_lossy_strict_to_slice(bytes, buf)
}

/// Decodes UTF-8 or CESU-8 as [`decode_lossy`] does, and writes the string to a slice. It returns
/// how many bytes it wrote at the start; the rest is unchanged.
///
/// ```
/// let mut buf = [0xEE; 6];
/// assert_eq!(simd_cesu8::decode_lossy_to_slice(b"a\xFF", &mut buf)?, 4);
/// assert_eq!(buf, *b"a\xEF\xBF\xBD\xEE\xEE");
/// # Ok::<(), simd_cesu8::SliceError>(())
/// ```
///
/// # Errors
///
/// [`SliceError::TooShort`] with the string's length if the slice is shorter, and
/// [`SliceError::TooLong`] if that exceeds `usize`. The slice is then unchanged.
#[inline]
pub fn decode_lossy_to_slice(bytes: &[u8], buf: &mut [u8]) -> Result<usize, SliceError> {
    let lossy = level::of_cesu8::decode_lossy_strict_to_slice;
    short::lenient_lossy_to_slice(bytes, buf, decode_strict_to_slice, lossy)
}

/// Returns how many UTF-16 code units a string has, as Java and JavaScript count its length.
///
/// ```
/// assert_eq!(simd_cesu8::utf16_len("a\u{10FFFF}"), 3);
/// ```
#[must_use]
#[inline]
pub fn utf16_len(value: &str) -> usize {
    level::utf16_len(value)
}

/// Compares two strings by their UTF-16 code units, as Java's `compareTo`, JavaScript and the
/// canonical JSON of RFC 8785 do. Their encodings in CESU-8 compare alike.
///
/// ```
/// use std::cmp::Ordering;
///
/// // The first half of the surrogate pair is D800.
/// assert_eq!(simd_cesu8::compare_as_utf16("\u{10000}", "\u{FFFF}"), Ordering::Less);
/// ```
#[must_use]
#[inline]
pub fn compare_as_utf16(value: &str, other: &str) -> Ordering {
    level::compare_as_utf16(value, other)
}
