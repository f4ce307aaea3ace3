//! The plain codec: computes what a call must return, one code unit at a time, with the UTF-16 of
//! Rust's std. It shares no code with the library.

use crate::actions::{Action, Flavor};
use std::str;

fn unit_bytes(flavor: Flavor, unit: u16, out: &mut Vec<u8>) {
    let low = |shift: u32| 0x80 | (unit >> shift & 0x3F) as u8;
    match unit {
        0 if flavor == Flavor::Mutf8 => out.extend([0xC0, 0x80]),
        0..0x80 => out.push(unit as u8),
        0x80..0x800 => out.extend([0xC0 | (unit >> 6) as u8, low(0)]),
        _ => out.extend([0xE0 | (unit >> 12) as u8, low(6), low(0)]),
    }
}

pub fn encoded(flavor: Flavor, text: &str) -> Vec<u8> {
    let mut out = Vec::new();
    for unit in text.encode_utf16() {
        unit_bytes(flavor, unit, &mut out);
    }
    out
}

/// Decodes code units of one to three bytes. Returns `None` if the bytes end within a code unit or
/// have another form. It does not reject overlong forms or wrong continuation bytes: the caller
/// finds them by encoding the text again.
fn units(bytes: &[u8]) -> Option<Vec<u16>> {
    let mut units = Vec::new();
    let mut rest = bytes;
    while let Some(first) = rest.first() {
        let (count, lead) = match first {
            0x00..=0x7F => (1, *first),
            0xC0..=0xDF => (2, first & 0x1F),
            0xE0..=0xEF => (3, first & 0x0F),
            _ => return None,
        };
        let mut unit = lead as u16;
        for byte in rest.get(1..count)? {
            unit = unit << 6 | (byte & 0x3F) as u16;
        }
        units.push(unit);
        rest = &rest[count..];
    }
    Some(units)
}

fn strictly_decoded(flavor: Flavor, bytes: &[u8]) -> Option<Vec<u8>> {
    let text = String::from_utf16(&units(bytes)?).ok()?;
    (encoded(flavor, &text) == bytes).then(|| text.into_bytes())
}

/// Decodes the character at the start of the bytes. Returns its UTF-8 and the length of its encoding.
fn first_character(flavor: Flavor, bytes: &[u8]) -> Option<(Vec<u8>, usize)> {
    let mut lengths = [1, 2, 3, 6].into_iter();
    lengths.find_map(|length| Some((strictly_decoded(flavor, bytes.get(..length)?)?, length)))
}

/// Each encoded character, and U+FFFD for each byte that is not part of one. `first_character` tries
/// short lengths first, so it never finds two characters as one.
fn lossily_decoded(flavor: Flavor, bytes: &[u8]) -> Vec<u8> {
    let mut text = Vec::new();
    let mut rest = bytes;
    while !rest.is_empty() {
        let replaced = || ("\u{FFFD}".as_bytes().to_vec(), 1);
        let (character, length) = first_character(flavor, rest).unwrap_or_else(replaced);
        text.extend(character);
        rest = &rest[length..];
    }
    text
}

/// The result that a call must return, or `None` if it must reject the input. For a call that only
/// returns a length, the result's length is that.
pub fn expected(action: Action, flavor: Flavor, input: &[u8]) -> Option<Vec<u8>> {
    let is_utf8 = str::from_utf8(input).is_ok();
    match action {
        Action::Encode | Action::EncodedLength => {
            Some(encoded(flavor, str::from_utf8(input).ok()?))
        }
        // If the whole input is UTF-8, the lenient calls return it unchanged.
        Action::Decode | Action::DecodeLossy if is_utf8 => Some(input.to_vec()),
        Action::Decode | Action::DecodeStrict => strictly_decoded(flavor, input),
        // The lossy reading of a valid encoding is the strict one, which is faster to compute.
        Action::DecodeLossy | Action::DecodeLossyStrict | Action::LossyLength => {
            strictly_decoded(flavor, input).or_else(|| Some(lossily_decoded(flavor, input)))
        }
    }
}
