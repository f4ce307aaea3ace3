//! The fast path: up to 64 bytes are tested before the code of a processor level (`level.rs`) is
//! called, since most strings are short and need no conversion. It is inlined into the caller.

use crate::{DecodingError, SliceError, utf8};

/// The most bytes that are tested.
const SHORT: usize = 64;

const HIGH: u64 = 0x8080_8080_8080_8080;

/// The least byte that is not ASCII.
const NON_ASCII: u8 = 0x80;

/// The least byte that leads four bytes of UTF-8.
const LEAD_OF_FOUR: u8 = 0xF0;

/// Returns the bytes as a text if there are at most 64 and all are ASCII. With `WITHOUT_NULL` no
/// byte may be 00.
#[inline]
pub(crate) fn ascii<const WITHOUT_NULL: bool>(bytes: &[u8]) -> Option<&str> {
    if bytes.len() > SHORT || any_in_short::<NON_ASCII, WITHOUT_NULL>(bytes) {
        return None;
    }
    // SAFETY: ASCII is UTF-8.
    Some(unsafe { core::str::from_utf8_unchecked(bytes) })
}

/// Returns what a lenient call returns for at most 64 bytes, if they are ASCII or if the test for
/// UTF-8 alone decides it. Otherwise it returns `None`, and a level decides.
///
/// The test decides if a strict call would return the bytes unchanged or reject them. A strict call
/// rejects any byte from F0 on. It changes only what begins with ED, or, in MUTF-8 (`WITH_NULL`),
/// with C0. Only up to seven bytes are searched for these two, since for so few a level takes
/// longer than the test.
#[cfg_attr(not(debug_assertions), inline(always))]
pub(crate) fn lenient<const WITH_NULL: bool>(bytes: &[u8]) -> Option<Result<&str, DecodingError>> {
    // SAFETY: it is called for ASCII, and for bytes that `is_utf8` has tested.
    let text = |bytes| Some(Ok(unsafe { core::str::from_utf8_unchecked(bytes) }));
    if bytes.len() < 8 {
        let word = word_of_few(bytes);
        let has = |byte: u64| any_zero(word ^ ((HIGH >> 7) * byte));
        if word & HIGH == 0 {
            return text(bytes);
        }
        if has(0xED) || WITH_NULL && has(0xC0) {
            return None;
        }
    } else {
        if let Some(text) = ascii::<false>(bytes) {
            return Some(Ok(text));
        }
        if bytes.len() > SHORT || !any_in_short::<LEAD_OF_FOUR, false>(bytes) {
            return None;
        }
    }
    if utf8::is_utf8(bytes) { text(bytes) } else { Some(Err(DecodingError(()))) }
}

/// Returns a word that contains each of at most seven bytes, some of them more than once. If there
/// are fewer than four, its high half is 0.
#[inline]
fn word_of_few(bytes: &[u8]) -> u64 {
    let half = |at: usize| {
        bytes[at..].first_chunk().map_or(0, |half| u64::from(u32::from_le_bytes(*half)))
    };
    let len = bytes.len();
    match len {
        0 => 0,
        1..4 => {
            let (first, middle, last) = (bytes[0], bytes[len / 2], bytes[len - 1]);
            u64::from(u32::from_le_bytes([first, middle, last, last]))
        }
        _ => half(0) | half(len - 4) << 32,
    }
}

/// Returns whether a byte of the word is 0.
#[inline]
fn any_zero(word: u64) -> bool {
    word.wrapping_sub(HIGH >> 7) & !word & HIGH != 0
}

/// Copies the bytes to a slice if there are at most 64 and all are ASCII. With `WITHOUT_NULL` no
/// byte may be 00. It is not inlined, so that not every call to a slice has a copy of it.
#[inline(never)]
pub(crate) fn copy_ascii<const WITHOUT_NULL: bool>(
    bytes: &[u8],
    buf: &mut [u8],
) -> Option<Result<usize, SliceError>> {
    ascii::<WITHOUT_NULL>(bytes).map(|text| copy(text.as_bytes(), buf))
}

/// Writes what a lenient call decodes: UTF-8 unchanged, and otherwise what `strict` writes. If
/// `strict` accepts UTF-8, it writes it unchanged, so the test for UTF-8 may come after it.
pub(crate) fn lenient_to_slice(
    bytes: &[u8],
    buf: &mut [u8],
    strict: impl FnOnce(&[u8], &mut [u8]) -> Result<usize, SliceError>,
) -> Result<usize, SliceError> {
    match strict(bytes, buf) {
        Err(SliceError::Invalid) if utf8::is_utf8(bytes) => copy(bytes, buf),
        result => result,
    }
}

/// Like `lenient_to_slice`, for a call that replaces what is ill-formed: if the bytes are neither
/// UTF-8 nor the encoding, `lossy` writes their text.
pub(crate) fn lenient_lossy_to_slice(
    bytes: &[u8],
    buf: &mut [u8],
    strict: impl FnOnce(&[u8], &mut [u8]) -> Result<usize, SliceError>,
    lossy: impl FnOnce(&[u8], &mut [u8]) -> Result<usize, SliceError>,
) -> Result<usize, SliceError> {
    match lenient_to_slice(bytes, buf, strict) {
        Err(SliceError::Invalid) => lossy(bytes, buf),
        result => result,
    }
}

/// Copies the bytes to a slice, if they fit.
pub(crate) fn copy(bytes: &[u8], buf: &mut [u8]) -> Result<usize, SliceError> {
    let needed = bytes.len();
    buf.get_mut(..needed).ok_or(SliceError::TooShort { needed })?.copy_from_slice(bytes);
    Ok(needed)
}

/// Returns whether a text has at most 64 bytes and the encoding changes none of them: none leads
/// four bytes, or, with `WITHOUT_NULL`, is 00.
#[inline]
pub(crate) fn is_unchanged<const WITHOUT_NULL: bool>(text: &str) -> bool {
    text.len() <= SHORT && !any_in_short::<LEAD_OF_FOUR, WITHOUT_NULL>(text.as_bytes())
}

/// Returns whether one of at most 64 bytes is at least `LEAST`, which is 80 or F0, or, with
/// `OR_NULL`, is 00.
#[inline]
fn any_in_short<const LEAST: u8, const OR_NULL: bool>(bytes: &[u8]) -> bool {
    #[cfg(all(
        any(target_arch = "x86_64", all(target_arch = "aarch64", target_endian = "little")),
        not(miri)
    ))]
    if bytes.len() >= 16 {
        return vectors::any_at_least::<LEAST>(bytes) || OR_NULL && vectors::any_null(bytes);
    }
    any_in_words::<LEAST, OR_NULL>(bytes)
}

/// Like `any_in_short`, by words of eight bytes that cover all bytes, and may overlap.
#[inline]
fn any_in_words<const LEAST: u8, const OR_NULL: bool>(bytes: &[u8]) -> bool {
    let len = bytes.len();
    // Sets the high bit of each byte that is at least `LEAST`.
    let test = |word: u64| {
        let least =
            if LEAST == NON_ASCII { word } else { word & word << 1 & word << 2 & word << 3 };
        // If a byte is 00, this sets the high bit of the lowest such byte, and otherwise of none.
        least | if OR_NULL { word.wrapping_sub(HIGH >> 7) & !word } else { 0 }
    };
    // `None` never occurs: each word that is tested lies within the bytes.
    let word = |at: usize| match bytes[at..].first_chunk() {
        Some(word) => test(u64::from_le_bytes(*word)),
        None => HIGH,
    };
    let found = match len {
        0 => 0,
        // These are from `is_unchanged`: a text that is so short has no character of four bytes.
        1..4 if LEAST == LEAD_OF_FOUR && !OR_NULL => 0,
        // The high half gets bytes of 01, which pass no test, in place of its zeros.
        1..4 => test(word_of_few(bytes) | HIGH >> 7 << 32),
        4..8 => test(word_of_few(bytes)),
        8..=16 => word(0) | word(len - 8),
        _ => {
            let mut found = word(len - 8);
            for at in (0..len - 8).step_by(8) {
                found |= word(at);
            }
            found
        }
    };
    found & HIGH != 0
}

/// Tests 16 to 64 bytes by vectors of 16, which cover all bytes, and may overlap. The instructions
/// are those that every processor of the architecture has.
#[cfg(all(target_arch = "x86_64", not(miri)))]
mod vectors {
    use core::arch::x86_64::*;

    /// Joins the vectors by `join`.
    #[inline]
    fn joined(bytes: &[u8], join: impl Fn(__m128i, __m128i) -> __m128i) -> __m128i {
        let load = |at: usize| match bytes[at..].first_chunk::<16>() {
            // SAFETY: 16 bytes, and SSE2.
            Some(bytes) => unsafe { _mm_loadu_si128(bytes.as_ptr().cast()) },
            None => unreachable!(),
        };
        let len = bytes.len();
        let ends = join(load(0), load(len - 16));
        if len <= 32 { ends } else { join(ends, join(load(16), load(len - 32))) }
    }

    #[inline]
    pub fn any_at_least<const LEAST: u8>(bytes: &[u8]) -> bool {
        // SAFETY: SSE2.
        unsafe {
            let most = joined(bytes, |a, b| _mm_max_epu8(a, b));
            if LEAST == 0x80 {
                return _mm_movemask_epi8(most) != 0;
            }
            let least = _mm_set1_epi8(LEAST as i8);
            _mm_movemask_epi8(_mm_cmpeq_epi8(_mm_max_epu8(most, least), most)) != 0
        }
    }

    #[inline]
    pub fn any_null(bytes: &[u8]) -> bool {
        // SAFETY: SSE2.
        unsafe {
            let least = joined(bytes, |a, b| _mm_min_epu8(a, b));
            _mm_movemask_epi8(_mm_cmpeq_epi8(least, _mm_setzero_si128())) != 0
        }
    }
}

/// Tests 16 to 64 bytes by vectors on aarch64 too.
#[cfg(all(target_arch = "aarch64", target_endian = "little", not(miri)))]
mod vectors {
    use core::arch::aarch64::*;

    /// Joins the vectors by `join`.
    #[inline]
    fn joined(bytes: &[u8], join: impl Fn(uint8x16_t, uint8x16_t) -> uint8x16_t) -> uint8x16_t {
        let load = |at: usize| match bytes[at..].first_chunk::<16>() {
            // SAFETY: 16 bytes, and NEON.
            Some(bytes) => unsafe { vld1q_u8(bytes.as_ptr()) },
            None => unreachable!(),
        };
        let len = bytes.len();
        let ends = join(load(0), load(len - 16));
        if len <= 32 { ends } else { join(ends, join(load(16), load(len - 32))) }
    }

    #[inline]
    pub fn any_at_least<const LEAST: u8>(bytes: &[u8]) -> bool {
        // SAFETY: NEON.
        unsafe { vmaxvq_u8(joined(bytes, |a, b| vmaxq_u8(a, b))) >= LEAST }
    }

    #[inline]
    pub fn any_null(bytes: &[u8]) -> bool {
        // SAFETY: NEON.
        unsafe { vminvq_u8(joined(bytes, |a, b| vminq_u8(a, b))) == 0 }
    }
}
