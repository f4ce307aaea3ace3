//! The calls of one level, with Rust's types and without an allocator. `by_level!` (`level.rs`)
//! chooses the level that a public call uses.
//!
//! The functions in `of_cesu8`, in `of_mutf8` and at the end have no type parameter, so that the
//! codec is compiled once, in this crate, and not in its users'.

use alloc::borrow::Cow;
use alloc::vec::Vec;
use core::cmp::Ordering;

use super::bytes::flavor::{Cesu8Flavor, Flavor, Mutf8Flavor};
use super::bytes::lanes::class::{Either, FourByteLead};
use super::bytes::lanes::search::any_in_bytes;
use super::bytes::lengths;
use super::bytes::strictness::{LossyReading, Reading, StrictReading};
use super::bytes::utf8::{known_string, known_text};
use super::bytes::writing::copies::append_short;
use super::calls::{self, TooShort, mutf8};
use super::decode::error::WriteError;
use super::decode::lanes::character_set::Unchanged;
use super::decode::modes::{Accepts, EncodingAlone, Lenient, Mode, prefix_unless_kept};
use super::decode::pass::short::{SHORT_STRICT, write_short};
use super::decode::prefix::{UnchangedPrefix, longest_prefix};
use super::decode::to_slice::decode_to_slice;
use super::decode::valid::valid_up_to_other;
use super::kit::is_utf8_by_parts;
use super::memory::{AllocError, Global, Part};
use super::{decode, encode};
use crate::panics::capacity_overflow;
use crate::{DecodingError, SliceError, short};

/// Returns whether the encoding changes some byte. All calls share one function for this, since its
/// code is long.
#[cfg_attr(not(debug_assertions), inline(always))]
fn contains_changed<F: Flavor>(bytes: &[u8]) -> bool {
    at_level! {
        #[inline(never)] {
            fn at_level<F: Flavor>(bytes: &[u8]) -> bool {
                any_in_bytes::<Either<F::Null, FourByteLead>>(bytes)
            }
        } at_level::<F>(bytes)
    }
}

/// Returns the length of the encoding of a text. All calls share one function for this too.
#[cfg_attr(not(debug_assertions), inline(always))]
fn encoded_len<F: Flavor>(text: &str) -> usize {
    at_level! {
        #[inline(never)] {
            fn at_level<F: Flavor>(text: &str) -> usize {
                lengths::encoded_len::<F>(text)
            }
        } at_level::<F>(text)
    }
}

#[cfg_attr(not(debug_assertions), inline(always))]
fn encoded<F: Flavor>(text: &str) -> Cow<'_, [u8]> {
    // The public call has tested up to 64 bytes before, but src/tests.rs calls a level directly.
    // Inlined, this test takes less time than a call.
    let is_unchanged = match (text.len() <= FEW, F::has_long_null()) {
        (true, true) => short::is_unchanged::<true>(text),
        (true, false) => short::is_unchanged::<false>(text),
        _ => !contains_changed::<F>(text.as_bytes()),
    };
    if is_unchanged {
        return Cow::Borrowed(text.as_bytes());
    }
    match encode::encode::<F>(Global, text) {
        Ok(bytes) => Cow::Owned(bytes),
        Err(AllocError) => capacity_overflow(),
    }
}

#[cfg_attr(not(debug_assertions), inline(always))]
fn encode_into<F: Flavor>(text: &str, buf: &mut Vec<u8>) {
    if !contains_changed::<F>(text.as_bytes()) {
        return buf.extend_from_slice(text.as_bytes());
    }
    if encode::encode_into::<F>(text, encoded_len::<F>(text), buf).is_err() {
        capacity_overflow();
    }
}

/// The most bytes that are decoded on the stack.
const FEW: usize = 64;

/// The mode that accepts the encoding alone, without a fast path for ASCII: the public call has
/// already tested up to 64 bytes for it (`short.rs`).
struct Tested;

impl Accepts for Tested {
    #[cfg_attr(not(debug_assertions), inline(always))]
    fn mode() -> Mode {
        Mode::EncodingAlone
    }

    #[cfg_attr(not(debug_assertions), inline(always))]
    fn is_short_kept<F: Flavor>(_: &[u8]) -> bool {
        false
    }
}

/// Returns `None` if all bytes are unchanged in UTF-8, and otherwise the unchanged prefix.
/// `LENIENT` says whether the mode `A` is `Lenient`. If it is, the result is also `None` for more
/// than 64 bytes of UTF-8 without characters of four bytes.
#[cfg_attr(not(debug_assertions), inline(always))]
fn front_unless_unchanged<F: Flavor, A: Accepts, const LENIENT: bool>(
    bytes: &[u8],
) -> Option<UnchangedPrefix> {
    if bytes.len() <= FEW {
        return prefix_unless_kept::<F, Tested>(bytes);
    }
    if A::is_short_kept::<F>(bytes) {
        return None;
    }
    // A lenient call first looks for the prefix that CESU-8 leaves unchanged, in which a byte 00
    // may be: if that is everything, the input is UTF-8. These searches are inlined, unlike those
    // of at most 64 bytes, since they are little more than a call.
    let mut len = if LENIENT {
        longest_prefix::<Cesu8Flavor, Unchanged>(bytes)
    } else {
        longest_prefix::<F, Unchanged>(bytes)
    };
    if LENIENT
        && F::has_long_null()
        && len < bytes.len()
        && contains_changed::<F>(bytes.part(..len))
    {
        len = longest_prefix::<F, Unchanged>(bytes);
    }
    if len == bytes.len() { None } else { Some(UnchangedPrefix { len, changed: 0 }) }
}

/// Returns whether bytes are UTF-8. Their unchanged prefix, `front`, is known to be. If all are,
/// the next character is one that the encoding lacks: 00, or one of four bytes.
#[cfg_attr(not(debug_assertions), inline(always))]
fn is_utf8_after(front: UnchangedPrefix, bytes: &[u8]) -> bool {
    let rest = bytes.part(front.len..);
    matches!(rest, [0 | 0xF0..=0xF7, ..]) && is_utf8_by_parts(rest)
}

/// Decodes strictly. Input is rejected before memory is allocated.
#[cfg_attr(not(debug_assertions), inline(always))]
fn strict<F: Flavor, A: Accepts, const LENIENT: bool>(
    bytes: &[u8],
) -> Result<Cow<'_, str>, DecodingError> {
    match front_unless_unchanged::<F, A, LENIENT>(bytes) {
        None => Ok(Cow::Borrowed(known_text(bytes))),
        Some(front) => strict_other::<F>(bytes, front, LENIENT),
    }
}

/// Decodes strictly what is not unchanged. It is one function for both modes, and not inlined, so
/// that unchanged input has few registers to save.
#[cfg_attr(not(debug_assertions), inline(always))]
fn strict_other<F: Flavor>(
    bytes: &[u8],
    front: UnchangedPrefix,
    is_lenient: bool,
) -> Result<Cow<'_, str>, DecodingError> {
    at_level! {
        #[inline(never)] {
            fn at_level<F: Flavor>(
                bytes: &[u8],
                front: UnchangedPrefix,
                is_lenient: bool,
            ) -> Result<Cow<'_, str>, DecodingError> {
                // `changed` is 0 for more than 64 bytes, and also if a byte is ill-formed. If it is
                // not 0, there is a surrogate pair or C0 80, so the bytes are not UTF-8.
                if front.changed != 0 {
                    return strict_few::<F>(bytes, front);
                }
                if is_lenient && is_utf8_after(front, bytes) {
                    return Ok(Cow::Borrowed(known_text(bytes)));
                }
                if bytes.len() <= FEW {
                    return Err(DecodingError(()));
                }
                strict_many::<F>(bytes, front)
            }
        } at_level::<F>(bytes, front, is_lenient)
    }
}

/// Decodes strictly at most 64 bytes, of which some change.
#[cfg_attr(not(debug_assertions), inline(always))]
fn strict_few<F: Flavor>(
    bytes: &[u8],
    front: UnchangedPrefix,
) -> Result<Cow<'_, str>, DecodingError> {
    let mut written = [0; SHORT_STRICT];
    let Ok(len) = write_short::<F, StrictReading>(bytes, front, &mut written) else {
        return Err(DecodingError(()));
    };
    let mut text = Vec::with_capacity(len);
    append_short(written.part(..len), &mut text);
    Ok(Cow::Owned(known_string(text)))
}

/// Decodes strictly more than 64 bytes. It is not inlined, so that shorter input saves few
/// registers.
#[cfg_attr(not(debug_assertions), inline(always))]
fn strict_many<F: Flavor>(
    bytes: &[u8],
    front: UnchangedPrefix,
) -> Result<Cow<'_, str>, DecodingError> {
    at_level! {
        #[inline(never)] {
            fn at_level<F: Flavor>(
                bytes: &[u8],
                front: UnchangedPrefix,
            ) -> Result<Cow<'_, str>, DecodingError> {
                let rest = bytes.part(front.len..);
                if valid_up_to_other::<F>(rest) < rest.len() {
                    return Err(DecodingError(()));
                }
                match decode::decode_strict::<F>(Global, bytes, front) {
                    Ok(text) => Ok(Cow::Owned(text)),
                    Err(_) => Err(DecodingError(())),
                }
            }
        } at_level::<F>(bytes, front)
    }
}

/// Decodes, and replaces what is ill-formed.
#[cfg_attr(not(debug_assertions), inline(always))]
fn lossy<F: Flavor, A: Accepts, const LENIENT: bool>(bytes: &[u8]) -> Cow<'_, str> {
    let Some(front) = front_unless_unchanged::<F, A, LENIENT>(bytes) else {
        return Cow::Borrowed(known_text(bytes));
    };
    if LENIENT && is_utf8_after(front, bytes) {
        return Cow::Borrowed(known_text(bytes));
    }
    match decode::decode_lossy::<F>(Global, bytes, front) {
        Ok(text) => Cow::Owned(text),
        Err(AllocError) => capacity_overflow(),
    }
}

fn too_short(fault: TooShort) -> SliceError {
    SliceError::TooShort { needed: fault.needed() }
}

/// Decodes the encoding, strictly or lossily, and writes the text to a slice. The lenient calls to
/// a slice are not here: `short.rs` makes them of the strict and the lossy one.
#[cfg_attr(not(debug_assertions), inline(always))]
fn to_slice<F: Flavor, S: Reading>(bytes: &[u8], buf: &mut [u8]) -> SliceResult {
    match decode_to_slice::<F, Tested, S>(bytes, buf) {
        Ok(len) => Ok(len),
        Err(WriteError::NoText) => Err(SliceError::Invalid),
        Err(WriteError::TooLong) => Err(SliceError::TooLong),
        Err(WriteError::NoRoom(no_room)) => Err(SliceError::TooShort { needed: no_room.needed }),
    }
}

type SliceResult = Result<usize, SliceError>;

/// Defines functions with the features of this level.
macro_rules! at_this_level {
    ($($name:ident($($argument:ident: $type:ty),*) -> $result:ty = $value:expr;)*) => {
        $(call_at_level! {
            fn $name($($argument: $type),*) -> $result {
                $value
            }
        })*
    };
}

/// Defines the calls of an encoding: `$calls` has those of the library, and `$flavor` is its type.
macro_rules! calls_of {
    ($module:ident, $calls:ident, $flavor:ident) => {
        pub mod $module {
            use super::*;

            at_this_level! {
                contains_changed(bytes: &[u8]) -> bool = super::contains_changed::<$flavor>(bytes);
                encoded_len(text: &str) -> usize = super::encoded_len::<$flavor>(text);
                encode(text: &str) -> Cow<'_, [u8]> = encoded::<$flavor>(text);
                encode_into(text: &str, buf: &mut Vec<u8>) -> () =
                    super::encode_into::<$flavor>(text, buf);
                decode_strict(bytes: &[u8]) -> Result<Cow<'_, str>, DecodingError> =
                    strict::<$flavor, EncodingAlone, false>(bytes);
                decode(bytes: &[u8]) -> Result<Cow<'_, str>, DecodingError> =
                    strict::<$flavor, Lenient, true>(bytes);
                decode_lossy_strict(bytes: &[u8]) -> Cow<'_, str> =
                    lossy::<$flavor, EncodingAlone, false>(bytes);
                decode_lossy(bytes: &[u8]) -> Cow<'_, str> =
                    lossy::<$flavor, Lenient, true>(bytes);
                decoded_len(bytes: &[u8]) -> Option<usize> = $calls::decoded_len(bytes);
                lossy_len(bytes: &[u8]) -> Option<usize> = $calls::lossy_len(bytes);
                valid_up_to(bytes: &[u8]) -> usize = $calls::valid_up_to(bytes);
                encode_to_slice(text: &str, buf: &mut [u8]) -> SliceResult =
                    $calls::encode_to_slice(text, buf).map_err(too_short);
                decode_strict_to_slice(bytes: &[u8], buf: &mut [u8]) -> SliceResult =
                    to_slice::<$flavor, StrictReading>(bytes, buf);
                decode_lossy_strict_to_slice(bytes: &[u8], buf: &mut [u8]) -> SliceResult =
                    to_slice::<$flavor, LossyReading>(bytes, buf);
            }
        }
    };
}

calls_of!(of_cesu8, calls, Cesu8Flavor);
calls_of!(of_mutf8, mutf8, Mutf8Flavor);

at_this_level! {
    utf16_len(text: &str) -> usize = calls::utf16_len(text);
    compare_as_utf16(text: &str, other: &str) -> Ordering = calls::compare_as_utf16(text, other);
}
