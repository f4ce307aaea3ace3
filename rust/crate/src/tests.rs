//! Compares each level with a codec that reads one character after another by the standards'
//! tables, on hostile inputs.
//!
//! `CESU8_INPUTS` is the number of inputs. Without it a debug build tests few, since it is slow.

use std::borrow::Cow;
use std::string::String;
use std::vec::Vec;
use std::{env, format, println, vec};

use crate::{DecodingError, SliceError};

/// A codec by the tables of the standards. It shares no code with the crate.
mod standard {
    use super::*;

    pub fn encoded(is_mutf8: bool, text: &str) -> Vec<u8> {
        let mut bytes = Vec::new();
        for unit in text.encode_utf16() {
            match unit {
                _ if is_mutf8 && unit == 0 => bytes.extend([0xC0, 0x80]),
                ..0x80 => bytes.push(unit as u8),
                0x80..0x800 => {
                    bytes.extend([(0xC0 + unit / 0x40) as u8, (0x80 + unit % 0x40) as u8])
                }
                _ => bytes.extend([
                    (0xE0 + unit / 0x1000) as u8,
                    (0x80 + unit / 0x40 % 0x40) as u8,
                    (0x80 + unit % 0x40) as u8,
                ]),
            }
        }
        bytes
    }

    /// How many bytes the encoded character has that begins the bytes, or 0 if none does.
    fn width(is_mutf8: bool, bytes: &[u8]) -> usize {
        match bytes {
            [0x00, ..] if is_mutf8 => 0,
            [0x00..=0x7F, ..] => 1,
            [0xC0, 0x80, ..] if is_mutf8 => 2,
            [0xC2..=0xDF, 0x80..=0xBF, ..] => 2,
            [0xE0, 0xA0..=0xBF, 0x80..=0xBF, ..] => 3,
            [0xE1..=0xEC, 0x80..=0xBF, 0x80..=0xBF, ..] => 3,
            [0xED, 0x80..=0x9F, 0x80..=0xBF, ..] => 3,
            [0xEE..=0xEF, 0x80..=0xBF, 0x80..=0xBF, ..] => 3,
            [0xED, 0xA0..=0xAF, 0x80..=0xBF, 0xED, 0xB0..=0xBF, 0x80..=0xBF, ..] => 6,
            _ => 0,
        }
    }

    /// The character that these bytes encode, or U+FFFD if there are none.
    fn character(bytes: &[u8]) -> char {
        let digits = |bytes: &[u8], first: u8| {
            bytes[1..]
                .iter()
                .fold(u32::from(bytes[0] % first), |n, byte| n * 0x40 + u32::from(byte % 0x40))
        };
        let scalar = match bytes.len() {
            0 => 0xFFFD,
            1 => u32::from(bytes[0]),
            2 => digits(bytes, 0x20),
            3 => digits(bytes, 0x10),
            _ => {
                0x10000 + (digits(&bytes[..3], 0x10) - 0xD800) * 0x400 + digits(&bytes[3..], 0x10)
                    - 0xDC00
            }
        };
        char::from_u32(scalar).unwrap()
    }

    /// The lossy text, and how many bytes at the start are whole encoded characters.
    pub fn decoded(is_mutf8: bool, bytes: &[u8]) -> (String, usize) {
        let (mut text, mut valid, mut rest) = (String::new(), None, bytes);
        while !rest.is_empty() {
            let width = width(is_mutf8, rest);
            if width == 0 && valid.is_none() {
                valid = Some(bytes.len() - rest.len());
            }
            text.push(character(&rest[..width]));
            rest = &rest[width.max(1)..];
        }
        (text, valid.unwrap_or(bytes.len()))
    }
}

/// A xorshift generator. Its state must not be 0: it would stay 0.
struct Random(u64);

impl Random {
    fn next(&mut self) -> u64 {
        self.0 ^= self.0 << 13;
        self.0 ^= self.0 >> 7;
        self.0 ^= self.0 << 17;
        self.0
    }

    fn below(&mut self, end: u64) -> u64 {
        (self.next() >> 20) % end
    }

    /// A random character with `width` bytes of UTF-8, or U+0000 if `width` is 0.
    fn character(&mut self, width: u64) -> char {
        loop {
            let scalar = match width {
                0 => 0,
                1 => 1 + self.below(0x7F),
                2 => 0x80 + self.below(0x780),
                3 => 0x800 + self.below(0xF800),
                _ => 0x10000 + self.below(0x100000),
            };
            if let Some(character) = char::from_u32(scalar as u32) {
                return character;
            }
        }
    }

    fn text(&mut self, len: usize) -> String {
        let widths = 1 + self.below(5);
        let mut text = String::new();
        while text.len() < len {
            let width = [1, 2, 3, 4, 0][self.below(widths) as usize];
            text.push(self.character(width));
        }
        text
    }

    /// A part of an input: a run, one character, or bytes that belong nowhere.
    fn part(&mut self, bytes: &mut Vec<u8>) {
        let low = |random: &mut Self| 0x80 + random.below(0x40) as u8;
        match self.below(14) {
            0 | 1 => (0..1 + self.below(40)).for_each(|_| bytes.push(b'a' + self.below(26) as u8)),
            2 => (0..1 + self.below(12)).for_each(|_| bytes.extend("\u{20AC}".bytes())),
            3 => bytes.extend([0xC0, 0x80]),
            4 => bytes.push(0),
            5 | 6 => {
                let width = self.below(5);
                bytes.extend(standard::encoded(true, &String::from(self.character(width))));
            }
            7 => {
                let width = self.below(5);
                bytes.extend(String::from(self.character(width)).bytes());
            }
            8 => bytes.extend([0xED, 0xA0 + self.below(32) as u8, low(self)]),
            9 => bytes.push(self.next() as u8),
            10 => bytes.extend([0xC0 + self.below(2) as u8, low(self)]),
            11 => bytes.extend([0xE0, low(self), low(self)]),
            12 => bytes.extend([0xF0 + self.below(8) as u8, low(self), low(self), low(self)]),
            _ => {
                let whole = standard::encoded(true, &String::from(self.character(4)));
                bytes.extend(&whole[..self.below(6) as usize]);
            }
        }
    }

    fn bytes(&mut self) -> Vec<u8> {
        let len = match self.below(100) {
            0..50 => self.below(70),
            50..90 => self.below(400),
            90..99 => self.below(5000),
            _ => self.below(20000),
        } as usize;
        let mut bytes = Vec::new();
        match self.below(6) {
            0 | 1 => {
                let is_mutf8 = self.below(2) == 0;
                bytes = standard::encoded(is_mutf8, &self.text(len));
                for _ in 0..self.below(3) {
                    if !bytes.is_empty() {
                        let at = self.below(bytes.len() as u64) as usize;
                        bytes[at] = self.next() as u8;
                    }
                }
            }
            2 => bytes = self.text(len).into_bytes(),
            3 => {
                bytes.resize(len, b'a');
                let mut part = Vec::new();
                (0..self.below(4)).for_each(|_| self.part(&mut part));
                let at = self.below(len as u64 + 1) as usize;
                bytes.splice(at..at, part);
            }
            _ => {
                while bytes.len() < len {
                    self.part(&mut bytes);
                }
            }
        }
        bytes
    }
}

fn inputs() -> u64 {
    let few = if cfg!(debug_assertions) { 300 } else { 20_000 };
    env::var("CESU8_INPUTS").ok().and_then(|count| count.parse().ok()).unwrap_or(few)
}

/// Fails with the input, unless the result is as expected and is borrowed if and only if `borrows`
/// is true.
#[allow(clippy::ptr_arg)] // Whether it is borrowed is tested.
fn assert_same<T: ?Sized + ToOwned + PartialEq>(
    result: &Cow<T>,
    expected: &T,
    borrows: bool,
    what: &str,
    bytes: &[u8],
) {
    let right = **result == *expected && matches!(result, Cow::Borrowed(_)) == borrows;
    assert!(right, "{what} of {}", hexadecimal(bytes));
}

fn hexadecimal(bytes: &[u8]) -> String {
    let end = if bytes.len() > 200 { " .." } else { "" };
    bytes.iter().take(200).map(|byte| format!("{byte:02X} ")).collect::<String>() + end
}

/// Fails unless a call writes `expected` to a slice of its length, and nothing to one that is
/// shorter.
fn assert_puts(
    call: impl Fn(&mut [u8]) -> Result<usize, SliceError>,
    expected: &[u8],
    what: &str,
    bytes: &[u8],
) {
    let needed = expected.len();
    let mut buf = vec![0xEE; needed + 40];
    let result = call(&mut buf);
    assert!(result == Ok(needed) && buf[..needed] == *expected, "{what} of {}", hexadecimal(bytes));
    assert!(
        buf[needed..].iter().all(|byte| *byte == 0xEE),
        "{what} after its end of {}",
        hexadecimal(bytes)
    );
    buf.fill(0xEE);
    assert!(
        call(&mut buf[..needed]) == Ok(needed),
        "{what} in its length of {}",
        hexadecimal(bytes)
    );
    assert!(
        buf[needed..].iter().all(|byte| *byte == 0xEE),
        "{what} after its end of {}",
        hexadecimal(bytes)
    );
    if needed > 0 {
        buf.fill(0xEE);
        let result = call(&mut buf[..needed - 1]);
        assert!(
            result == Err(SliceError::TooShort { needed }),
            "{what} in less of {}",
            hexadecimal(bytes)
        );
        assert!(
            buf.iter().all(|byte| *byte == 0xEE),
            "{what} writes to a short slice, of {}",
            hexadecimal(bytes)
        );
    }
}

/// Tests an encoding of a level: `$calls` has its functions.
macro_rules! test_encoding {
    ($calls:path, $is_mutf8:literal, $bytes:expr) => {{
        use $calls as calls;
        let bytes: &[u8] = $bytes;
        let (lossy, valid) = standard::decoded($is_mutf8, bytes);
        let is_valid = valid == bytes.len();
        let utf8 = core::str::from_utf8(bytes).ok();
        let stays = lossy.as_bytes() == bytes;

        assert_same(
            &calls::decode_lossy_strict(bytes),
            &lossy,
            stays,
            "decode_lossy_strict",
            bytes,
        );
        let lenient = utf8.unwrap_or(&lossy);
        assert_same(&calls::decode_lossy(bytes), lenient, utf8.is_some(), "decode_lossy", bytes);
        match calls::decode_strict(bytes) {
            Ok(text) if is_valid => assert_same(&text, &lossy, stays, "decode_strict", bytes),
            Err(DecodingError(())) if !is_valid => {}
            _ => panic!("decode_strict of {}", hexadecimal(bytes)),
        }
        match calls::decode(bytes) {
            Ok(text) if is_valid || utf8.is_some() => {
                assert_same(&text, lenient, utf8.is_some(), "decode", bytes)
            }
            Err(DecodingError(())) if !is_valid && utf8.is_none() => {}
            _ => panic!("decode of {}", hexadecimal(bytes)),
        }
        assert_eq!(calls::valid_up_to(bytes), valid, "valid_up_to of {}", hexadecimal(bytes));
        assert_eq!(
            calls::lossy_len(bytes),
            Some(lossy.len()),
            "lossy_len of {}",
            hexadecimal(bytes)
        );
        assert_eq!(
            calls::decoded_len(bytes),
            is_valid.then_some(lossy.len()),
            "decoded_len of {}",
            hexadecimal(bytes)
        );
        let has_changed =
            bytes.iter().any(|byte| (0xF0..=0xF7).contains(byte) || $is_mutf8 && *byte == 0);
        assert_eq!(
            calls::contains_changed(bytes),
            has_changed,
            "contains_changed of {}",
            hexadecimal(bytes)
        );

        let put = |buf: &mut [u8]| calls::decode_lossy_strict_to_slice(bytes, buf);
        assert_puts(put, lossy.as_bytes(), "decode_lossy_strict_to_slice", bytes);
        let put = |buf: &mut [u8]| calls::decode_lossy_to_slice(bytes, buf);
        assert_puts(put, lenient.as_bytes(), "decode_lossy_to_slice", bytes);
        let put = |buf: &mut [u8]| calls::decode_strict_to_slice(bytes, buf);
        if is_valid {
            assert_puts(put, lossy.as_bytes(), "decode_strict_to_slice", bytes);
        } else {
            assert_eq!(
                put(&mut [0xEE; 8]),
                Err(SliceError::Invalid),
                "decode_strict_to_slice of {}",
                hexadecimal(bytes)
            );
        }
        let put = |buf: &mut [u8]| calls::decode_to_slice(bytes, buf);
        if is_valid || utf8.is_some() {
            assert_puts(put, lenient.as_bytes(), "decode_to_slice", bytes);
        } else {
            assert_eq!(
                put(&mut [0xEE; 8]),
                Err(SliceError::Invalid),
                "decode_to_slice of {}",
                hexadecimal(bytes)
            );
        }

        if let Some(text) = utf8 {
            let encoded = standard::encoded($is_mutf8, text);
            let stays = encoded == bytes;
            let result = calls::encode(text);
            assert_same(&result, &encoded[..], stays, "encode", bytes);
            if let Cow::Owned(owned) = &result {
                assert_eq!(owned.capacity(), encoded.len(), "capacity of {}", hexadecimal(bytes));
            }
            assert_eq!(
                calls::needs_encoded(text),
                !stays,
                "needs_encoded of {}",
                hexadecimal(bytes)
            );
            assert_eq!(
                calls::encoded_len(text),
                encoded.len(),
                "encoded_len of {}",
                hexadecimal(bytes)
            );
            let mut buf = b"id=".to_vec();
            calls::encode_into(text, &mut buf);
            assert!(
                buf[..3] == *b"id=" && buf[3..] == encoded[..],
                "encode_into of {}",
                hexadecimal(bytes)
            );
            assert_puts(
                |buf| calls::encode_to_slice(text, buf),
                &encoded,
                "encode_to_slice",
                bytes,
            );
        }
    }};
}

/// The functions of an encoding at a level, and the calls that are made of them. Those of `plain`
/// are safe functions, hence `allow(unused_unsafe)`.
macro_rules! level_calls {
    ($module:ident, $($calls:ident)::*) => {
        #[allow(unused_unsafe)]
        mod $module {
            pub use $($calls)::*::*;
            use crate::{SliceError, short};

            type SliceResult = Result<usize, SliceError>;

            unsafe fn strict(bytes: &[u8], buf: &mut [u8]) -> SliceResult {
                // SAFETY: the processor has the level's features.
                unsafe { decode_strict_to_slice(bytes, buf) }
            }

            unsafe fn lossy(bytes: &[u8], buf: &mut [u8]) -> SliceResult {
                // SAFETY: the processor has the level's features.
                unsafe { decode_lossy_strict_to_slice(bytes, buf) }
            }

            pub unsafe fn decode_to_slice(bytes: &[u8], buf: &mut [u8]) -> SliceResult {
                // SAFETY: the processor has the level's features.
                short::lenient_to_slice(bytes, buf, |bytes, buf| unsafe { strict(bytes, buf) })
            }

            pub unsafe fn decode_lossy_to_slice(bytes: &[u8], buf: &mut [u8]) -> SliceResult {
                // SAFETY: the processor has the level's features.
                let strict = |bytes: &[u8], buf: &mut [u8]| unsafe { strict(bytes, buf) };
                // SAFETY: the processor has the level's features.
                let lossy = |bytes: &[u8], buf: &mut [u8]| unsafe { lossy(bytes, buf) };
                short::lenient_lossy_to_slice(bytes, buf, strict, lossy)
            }

            pub unsafe fn needs_encoded(text: &str) -> bool {
                // SAFETY: the processor has the level's features.
                unsafe { contains_changed(text.as_bytes()) }
            }
        }
    };
}

/// Tests a level: `$surface` has its functions.
macro_rules! test_level {
    ($name:ident, $is_there:expr, $($surface:ident)::*) => {
        #[test]
        fn $name() {
            level_calls!(of_cesu8, $($surface)::*::of_cesu8);
            level_calls!(of_mutf8, $($surface)::*::of_mutf8);
            if !$is_there {
                println!("not tested: this processor is below the level");
                return;
            }
            let mut random = Random(0x9E37_79B9_7F4A_7C15);
            let mut last = String::new();
            for _ in 0..inputs() {
                // The allocation ends with the bytes, so that the address sanitizer, with which
                // tests/rust.sh runs this too, reports a read past them.
                let bytes = random.bytes().into_boxed_slice();
                // SAFETY: the processor has the level's features.
                #[allow(unused_unsafe)]
                unsafe {
                    test_encoding!(of_cesu8, false, &bytes);
                    test_encoding!(of_mutf8, true, &bytes);
                }
                if let Ok(text) = core::str::from_utf8(&bytes) {
                    use $($surface)::* as calls;
                    // SAFETY: the processor has the level's features.
                    #[allow(unused_unsafe)]
                    let units = unsafe { calls::utf16_len(text) };
                    assert_eq!(units, text.encode_utf16().count());
                    let mut other = String::from(text);
                    let character = random.character(1 + random.0 % 4);
                    other.push(character);
                    for other in [&other, &last] {
                        let expected = text.encode_utf16().cmp(other.encode_utf16());
                        // SAFETY: the processor has the level's features.
                        #[allow(unused_unsafe)]
                        let order = unsafe { calls::compare_as_utf16(text, other) };
                        assert_eq!(order, expected, "{text:?} {other:?}");
                    }
                    last = other;
                }
            }
        }
    };
}

test_level!(plain, true, crate::plain);
#[cfg(all(target_arch = "x86_64", not(any(miri, cesu8_level = "plain"))))]
test_level!(v2, is_x86_feature_detected!("sse4.2"), crate::level::x86::v2::surface);
#[cfg(all(target_arch = "x86_64", not(any(miri, cesu8_level = "plain"))))]
test_level!(v3, is_x86_feature_detected!("avx2"), crate::level::x86::v3::surface);
#[cfg(all(
    target_arch = "aarch64",
    target_endian = "little",
    not(any(miri, cesu8_level = "plain"))
))]
test_level!(neon, true, crate::level::aarch64::neon::surface);

/// The level that is detected is the highest that the build has and whose instructions the
/// processor has.
#[cfg(all(target_arch = "x86_64", feature = "std", not(any(miri, cesu8_level = "plain"))))]
#[test]
fn level() {
    use crate::level::x86::{Level, detected};

    let may_have_v3 = is_x86_feature_detected!("avx2") && cfg!(not(cesu8_level = "v2"));
    match detected() {
        #[cfg(not(cesu8_level = "v2"))]
        Level::V3 => assert!(may_have_v3),
        Level::V2 => assert!(!may_have_v3 && is_x86_feature_detected!("sse4.2")),
        Level::Plain => assert!(!is_x86_feature_detected!("sse4.2")),
    }
}

/// Tests the public calls, which have the fast path, on up to 70 bytes of ASCII with a few other
/// bytes at each offset.
#[test]
fn fast_path() {
    let odd: [&[u8]; 10] = [
        b"",
        b"\0",
        b"\x80",
        b"\xF0\x9F\x92\x96",
        b"\x7F",
        b"\xC0\x80",
        b"\xC3\xA9",
        b"\xED\x9F\xBF",
        b"\xED\xA0\xBD\xED\xB2\x96",
        b"\xFF",
    ];
    for len in 0..=70 {
        for at in 0..=len {
            for odd in odd {
                let mut bytes = vec![b'x'; len];
                bytes.splice(at..at, odd.iter().copied());
                test_public(&bytes);
            }
        }
    }
}

fn test_public(bytes: &[u8]) {
    mod public {
        pub use crate::implementation::active::contains_utf8_4_byte_char_header as contains_changed;
        pub use crate::*;
    }
    mod public_mutf8 {
        pub use crate::implementation::active;
        pub use crate::mutf8::*;
        pub use active::contains_null_or_utf8_4_byte_char_header as contains_changed;
    }
    test_encoding!(public, false, bytes);
    test_encoding!(public_mutf8, true, bytes);
}

#[test]
fn public_calls() {
    let mut random = Random(0xDEAD_BEEF_1234_5678);
    for _ in 0..inputs() {
        test_public(&random.bytes());
    }
}
