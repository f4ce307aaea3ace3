//! The calls of the Rust crate `simd_cesu8`, with the names of `measured.h`, for a shared object with
//! which bench compares this library. README.md beside this file has the lines that build it, with
//! version 1.2.0 of the crate.

use simd_cesu8::mutf8;
use std::borrow::Cow;
use std::slice;

/// `measured_outcome` of `measured.h`.
#[repr(C)]
pub struct Outcome {
    length: usize,
    has_answer: bool,
    is_borrowed: bool,
    is_invalid: bool,
}

/// Copies a result to the start of the buffer if it fits, and returns the outcome.
fn outcome(answer: Option<Cow<[u8]>>, buf: &mut [u8]) -> Outcome {
    if let Some(bytes) = &answer
        && let Some(start) = buf.get_mut(..bytes.len())
    {
        start.copy_from_slice(bytes);
    }
    Outcome {
        length: answer.as_ref().map_or(0, |bytes| bytes.len()),
        has_answer: answer.is_some(),
        is_borrowed: matches!(answer, Some(Cow::Borrowed(_))),
        is_invalid: answer.is_none(),
    }
}

fn bytes_of(text: Cow<str>) -> Cow<[u8]> {
    match text {
        Cow::Borrowed(text) => Cow::Borrowed(text.as_bytes()),
        Cow::Owned(text) => Cow::Owned(text.into_bytes()),
    }
}

fn text_of(bytes: &[u8]) -> Option<&str> {
    simdutf8::basic::from_utf8(bytes).ok()
}

/// Makes an export for each name. Its result is what the expression computes from the input.
macro_rules! exports {
    ($($name:ident: $answer:expr;)*) => {$(
        /// # Safety
        ///
        /// The pointers must be valid for this many bytes, and not null.
        #[unsafe(no_mangle)]
        pub unsafe extern "C" fn $name(
            input: *const u8,
            length: usize,
            buf: *mut u8,
            buf_length: usize,
        ) -> Outcome {
            let input = unsafe { slice::from_raw_parts(input, length) };
            let buf = unsafe { slice::from_raw_parts_mut(buf, buf_length) };
            let answer: fn(&[u8]) -> Option<Cow<[u8]>> = $answer;
            outcome(answer(input), buf)
        }
    )*};
}

exports! {
    measured_encode: |bytes| text_of(bytes).map(simd_cesu8::encode);
    measured_mutf8_encode: |bytes| text_of(bytes).map(mutf8::encode);
    measured_decode: |bytes| simd_cesu8::decode(bytes).ok().map(bytes_of);
    measured_mutf8_decode: |bytes| mutf8::decode(bytes).ok().map(bytes_of);
    measured_decode_strict: |bytes| simd_cesu8::decode_strict(bytes).ok().map(bytes_of);
    measured_mutf8_decode_strict: |bytes| mutf8::decode_strict(bytes).ok().map(bytes_of);
    measured_decode_lossy: |bytes| Some(bytes_of(simd_cesu8::decode_lossy(bytes)));
    measured_mutf8_decode_lossy: |bytes| Some(bytes_of(mutf8::decode_lossy(bytes)));
    measured_decode_lossy_strict: |bytes| Some(bytes_of(simd_cesu8::decode_lossy_strict(bytes)));
    measured_mutf8_decode_lossy_strict: |bytes| Some(bytes_of(mutf8::decode_lossy_strict(bytes)));
    // Whoever calls these two knows that the input is UTF-8.
    measured_encode_text: |bytes| Some(simd_cesu8::encode(unsafe { str::from_utf8_unchecked(bytes) }));
    measured_mutf8_encode_text: |bytes| Some(mutf8::encode(unsafe { str::from_utf8_unchecked(bytes) }));
}
