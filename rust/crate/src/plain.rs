//! The calls without vectors, in safe Rust, for machines that no other level is for.
//!
//! Decoding goes from piece to piece: UTF-8 of unchanged characters, a character that the encoding
//! writes otherwise, or bytes in no encoded character. This codec is written by hand and tested,
//! and no part of it is proved.
#![forbid(unsafe_code)]

use alloc::borrow::Cow;
use alloc::string::String;
use alloc::vec::Vec;
use core::cmp::Ordering;

use crate::panics::capacity_overflow;
use crate::{DecodingError, SliceError, utf8};

// The functions take the encoding as an argument, so that a program has one copy of each. Without
// `inline(never)`, the compiler could copy them into the calls of both encodings.

/// The bytes of a surrogate pair.
const PAIR: usize = 6;

const REPLACEMENT: &str = "\u{FFFD}";

/// Returns the offset of the first byte that is F0 or more, or in MUTF-8 also 00. If there is none,
/// it returns the length. In UTF-8 a byte of F0 or more leads four bytes.
fn first_changed(is_mutf8: bool, bytes: &[u8]) -> usize {
    const HIGH: u64 = 0x8080_8080_8080_8080;
    let is_changed = |byte: &u8| *byte >= 0xF0 || is_mutf8 && *byte == 0;
    let (mut at, mut words) = (0, bytes.chunks_exact(8));
    for word in &mut words {
        let word = u64::from_le_bytes([
            word[0], word[1], word[2], word[3], word[4], word[5], word[6], word[7],
        ]);
        // `leads` is 0 if and only if no byte has its four highest bits set, and `nulls` if and
        // only if no byte is 00.
        let leads = word & word << 1 & word << 2 & word << 3 & HIGH;
        let nulls = if is_mutf8 { word.wrapping_sub(HIGH >> 7) & !word & HIGH } else { 0 };
        if leads | nulls != 0 {
            break;
        }
        at += 8;
    }
    at + bytes[at..].iter().position(is_changed).unwrap_or(bytes.len() - at)
}

fn contains_changed(is_mutf8: bool, bytes: &[u8]) -> bool {
    first_changed(is_mutf8, bytes) < bytes.len()
}

#[inline(never)]
fn encoded_len(is_mutf8: bool, text: &str) -> usize {
    let more = |byte: u8| 2 * usize::from(byte >= 0xF0) + usize::from(is_mutf8 && byte == 0);
    text.len() + text.bytes().map(more).sum::<usize>()
}

/// Calls `write` with each part of the encoding in turn.
fn encode_by(is_mutf8: bool, text: &str, write: &mut dyn FnMut(&[u8])) {
    let mut rest = text;
    loop {
        let (same, changed) = rest.split_at(first_changed(is_mutf8, rest.as_bytes()));
        write(same.as_bytes());
        let mut characters = changed.chars();
        let Some(character) = characters.next() else { return };
        match character {
            '\0' => write(&[0xC0, 0x80]),
            _ => {
                let mut bytes = [0; PAIR];
                let mut units = [0; 2];
                for (bytes, unit) in
                    bytes.chunks_exact_mut(3).zip(character.encode_utf16(&mut units))
                {
                    let unit = *unit;
                    bytes[0] = 0xE0 | (unit >> 12) as u8;
                    bytes[1] = 0x80 | (unit >> 6 & 0x3F) as u8;
                    bytes[2] = 0x80 | (unit & 0x3F) as u8;
                }
                write(&bytes);
            }
        }
        rest = characters.as_str();
    }
}

/// The next piece of bytes that are decoded.
enum Piece<'a> {
    /// Characters that are the same in UTF-8.
    Same(&'a str),
    /// A character that the encoding writes otherwise.
    Changed(char),
    /// So many bytes in no encoded character.
    IllFormed(usize),
}

/// The pieces of bytes.
struct Pieces<'a> {
    is_mutf8: bool,
    /// The next bytes that are known to be UTF-8. The encoding may have other bytes for some of their
    /// characters.
    text: &'a str,
    /// The bytes after these.
    rest: &'a [u8],
}

impl<'a> Iterator for Pieces<'a> {
    type Item = Piece<'a>;

    fn next(&mut self) -> Option<Piece<'a>> {
        if self.text.is_empty() {
            if let Some((character, len)) = changed_at(self.is_mutf8, self.rest) {
                self.rest = &self.rest[len..];
                return Some(Piece::Changed(character));
            }
            let (text, rest) = utf8::split_valid(self.rest);
            (self.text, self.rest) = (text, rest);
        }
        let Some(first) = self.text.as_bytes().first() else {
            let (_, rest) = self.rest.split_first()?;
            self.rest = rest;
            return Some(Piece::IllFormed(1));
        };
        let (same, changed) =
            self.text.split_at(first_changed(self.is_mutf8, self.text.as_bytes()));
        if !same.is_empty() {
            self.text = changed;
            return Some(Piece::Same(same));
        }
        // UTF-8 that the encoding lacks: 00, or a character of four bytes.
        let len = if *first == 0 { 1 } else { 4 };
        self.text = &changed[len..];
        Some(Piece::IllFormed(len))
    }
}

fn pieces(is_mutf8: bool, bytes: &[u8]) -> Pieces<'_> {
    Pieces { is_mutf8, text: "", rest: bytes }
}

/// Returns the character that begins the bytes as a surrogate pair, or as C0 80 in MUTF-8, and how
/// many bytes it has.
fn changed_at(is_mutf8: bool, bytes: &[u8]) -> Option<(char, usize)> {
    match *bytes {
        [0xC0, 0x80, ..] if is_mutf8 => Some(('\0', 2)),
        [0xED, b @ 0xA0..=0xAF, c @ 0x80..=0xBF, 0xED, e @ 0xB0..=0xBF, f @ 0x80..=0xBF, ..] => {
            let digits = |byte: u8, mask: u8| u32::from(byte & mask);
            let high = digits(b, 0x0F) << 6 | digits(c, 0x3F);
            let low = digits(e, 0x0F) << 6 | digits(f, 0x3F);
            Some((char::from_u32(0x1_0000 + (high << 10 | low))?, PAIR))
        }
        _ => None,
    }
}

#[inline(never)]
fn valid_up_to(is_mutf8: bool, bytes: &[u8]) -> usize {
    let mut len = 0;
    for piece in pieces(is_mutf8, bytes) {
        len += match piece {
            Piece::Same(text) => text.len(),
            Piece::Changed('\0') => 2,
            Piece::Changed(_) => PAIR,
            Piece::IllFormed(_) => break,
        };
    }
    len
}

/// Returns the length of the decoded text, with U+FFFD for each byte in no encoded character, if it
/// fits `usize`. It may not, since U+FFFD has three bytes.
#[inline(never)]
fn lossy_len(is_mutf8: bool, bytes: &[u8]) -> Option<usize> {
    let mut len = 0usize;
    for piece in pieces(is_mutf8, bytes) {
        len = len.checked_add(match piece {
            Piece::Same(text) => text.len(),
            Piece::Changed(character) => character.len_utf8(),
            Piece::IllFormed(count) => REPLACEMENT.len() * count,
        })?;
    }
    Some(len)
}

/// Returns the length of the decoded text, unless a byte is in no encoded character.
#[inline(never)]
fn decoded_len(is_mutf8: bool, bytes: &[u8]) -> Option<usize> {
    let mut len = 0;
    for piece in pieces(is_mutf8, bytes) {
        len += match piece {
            Piece::Same(text) => text.len(),
            Piece::Changed(character) => character.len_utf8(),
            Piece::IllFormed(_) => return None,
        };
    }
    Some(len)
}

/// Returns the bytes as a text if they are UTF-8 of which nothing changes.
fn same_text(is_mutf8: bool, bytes: &[u8]) -> Option<&str> {
    if contains_changed(is_mutf8, bytes) {
        return None;
    }
    utf8::from_utf8(bytes)
}

/// Returns the decoded text, which has this length.
fn build(is_mutf8: bool, bytes: &[u8], len: usize) -> String {
    let mut text = String::with_capacity(len);
    for piece in pieces(is_mutf8, bytes) {
        match piece {
            Piece::Same(same) => text.push_str(same),
            Piece::Changed(character) => text.push(character),
            Piece::IllFormed(count) => (0..count).for_each(|_| text.push_str(REPLACEMENT)),
        }
    }
    text
}

/// Writes the decoded text, whose length is `needed`, to the start of a slice.
fn put_text(
    is_mutf8: bool,
    bytes: &[u8],
    needed: usize,
    buf: &mut [u8],
) -> Result<usize, SliceError> {
    let mut out = buf.get_mut(..needed).ok_or(SliceError::TooShort { needed })?;
    let mut write = |bytes: &[u8]| {
        let (front, rest) = core::mem::take(&mut out).split_at_mut(bytes.len());
        front.copy_from_slice(bytes);
        out = rest;
    };
    for piece in pieces(is_mutf8, bytes) {
        match piece {
            Piece::Same(same) => write(same.as_bytes()),
            Piece::Changed(character) => write(character.encode_utf8(&mut [0; 4]).as_bytes()),
            Piece::IllFormed(count) => (0..count).for_each(|_| write(REPLACEMENT.as_bytes())),
        }
    }
    Ok(needed)
}

#[inline(never)]
fn encode(is_mutf8: bool, text: &str) -> Cow<'_, [u8]> {
    if !contains_changed(is_mutf8, text.as_bytes()) {
        return Cow::Borrowed(text.as_bytes());
    }
    let mut encoded = Vec::with_capacity(encoded_len(is_mutf8, text));
    encode_by(is_mutf8, text, &mut |bytes| encoded.extend_from_slice(bytes));
    Cow::Owned(encoded)
}

#[inline(never)]
fn encode_into(is_mutf8: bool, text: &str, buf: &mut Vec<u8>) {
    buf.reserve(encoded_len(is_mutf8, text));
    encode_by(is_mutf8, text, &mut |bytes| buf.extend_from_slice(bytes));
}

#[inline(never)]
fn encode_to_slice(is_mutf8: bool, text: &str, buf: &mut [u8]) -> Result<usize, SliceError> {
    let needed = encoded_len(is_mutf8, text);
    let out = buf.get_mut(..needed).ok_or(SliceError::TooShort { needed })?;
    let mut end = 0;
    encode_by(is_mutf8, text, &mut |bytes| {
        out[end..end + bytes.len()].copy_from_slice(bytes);
        end += bytes.len();
    });
    Ok(needed)
}

#[inline(never)]
fn decode_strict(is_mutf8: bool, bytes: &[u8]) -> Result<Cow<'_, str>, DecodingError> {
    if let Some(text) = same_text(is_mutf8, bytes) {
        return Ok(Cow::Borrowed(text));
    }
    match decoded_len(is_mutf8, bytes) {
        Some(len) => Ok(Cow::Owned(build(is_mutf8, bytes, len))),
        None => Err(DecodingError(())),
    }
}

#[inline(never)]
fn decode(is_mutf8: bool, bytes: &[u8]) -> Result<Cow<'_, str>, DecodingError> {
    match utf8::from_utf8(bytes) {
        Some(text) => Ok(Cow::Borrowed(text)),
        None => decode_strict(is_mutf8, bytes),
    }
}

#[inline(never)]
fn decode_lossy_strict(is_mutf8: bool, bytes: &[u8]) -> Cow<'_, str> {
    if let Some(text) = same_text(is_mutf8, bytes) {
        return Cow::Borrowed(text);
    }
    match lossy_len(is_mutf8, bytes) {
        Some(len) => Cow::Owned(build(is_mutf8, bytes, len)),
        None => capacity_overflow(),
    }
}

#[inline(never)]
fn decode_lossy(is_mutf8: bool, bytes: &[u8]) -> Cow<'_, str> {
    match utf8::from_utf8(bytes) {
        Some(text) => Cow::Borrowed(text),
        None => decode_lossy_strict(is_mutf8, bytes),
    }
}

#[inline(never)]
fn decode_strict_to_slice(
    is_mutf8: bool,
    bytes: &[u8],
    buf: &mut [u8],
) -> Result<usize, SliceError> {
    let needed = decoded_len(is_mutf8, bytes).ok_or(SliceError::Invalid)?;
    put_text(is_mutf8, bytes, needed, buf)
}

#[inline(never)]
fn decode_lossy_strict_to_slice(
    is_mutf8: bool,
    bytes: &[u8],
    buf: &mut [u8],
) -> Result<usize, SliceError> {
    let needed = lossy_len(is_mutf8, bytes).ok_or(SliceError::TooLong)?;
    put_text(is_mutf8, bytes, needed, buf)
}

/// Defines the calls of an encoding: each passes its arguments on.
macro_rules! calls_of {
    ($is_mutf8:literal $($name:ident($($argument:ident: $type:ty),*) -> $result:ty;)*) => {
        $(pub fn $name($($argument: $type),*) -> $result {
            super::$name($is_mutf8, $($argument),*)
        })*
    };
    ($module:ident, $is_mutf8:literal) => {
        pub mod $module {
            use super::*;

            /// Whether a byte leads four bytes, F0 to F7, or is 00 in MUTF-8. The bytes need not be
            /// UTF-8.
            pub fn contains_changed(bytes: &[u8]) -> bool {
                bytes.iter().any(|byte| (0xF0..=0xF7).contains(byte) || $is_mutf8 && *byte == 0)
            }

            calls_of! {
                $is_mutf8
                encoded_len(text: &str) -> usize;
                encode(text: &str) -> Cow<'_, [u8]>;
                encode_into(text: &str, buf: &mut Vec<u8>) -> ();
                decode_strict(bytes: &[u8]) -> Result<Cow<'_, str>, DecodingError>;
                decode(bytes: &[u8]) -> Result<Cow<'_, str>, DecodingError>;
                decode_lossy_strict(bytes: &[u8]) -> Cow<'_, str>;
                decode_lossy(bytes: &[u8]) -> Cow<'_, str>;
                decoded_len(bytes: &[u8]) -> Option<usize>;
                lossy_len(bytes: &[u8]) -> Option<usize>;
                valid_up_to(bytes: &[u8]) -> usize;
                encode_to_slice(text: &str, buf: &mut [u8]) -> Result<usize, SliceError>;
                decode_strict_to_slice(bytes: &[u8], buf: &mut [u8]) -> Result<usize, SliceError>;
                decode_lossy_strict_to_slice(
                    bytes: &[u8],
                    buf: &mut [u8]
                ) -> Result<usize, SliceError>;
            }
        }
    };
}

calls_of!(of_cesu8, false);
calls_of!(of_mutf8, true);

pub fn utf16_len(text: &str) -> usize {
    // One code unit for each lead byte, and one more for each that leads four bytes.
    let units = |byte: u8| usize::from(byte & 0xC0 != 0x80) + usize::from(byte >= 0xF0);
    text.bytes().map(units).sum()
}

pub fn compare_as_utf16(text: &str, other: &str) -> Ordering {
    // In UTF-16 the characters of four bytes are surrogates, which are below U+E000 to U+FFFF. In
    // UTF-8 the characters from U+E000 to U+FFFF have the lead bytes EE and EF, whose rank is
    // therefore above that of F0 to F4.
    let rank = |byte: u8| if matches!(byte, 0xEE | 0xEF) { byte + 0x10 } else { byte };
    let differing = text.bytes().zip(other.bytes()).find(|(byte, other)| byte != other);
    match differing {
        Some((byte, other)) => rank(byte).cmp(&rank(other)),
        None => text.len().cmp(&other.len()),
    }
}
