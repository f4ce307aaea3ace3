//! The levels, and which of them a call uses. Each but `plain` has its own copy of the codec.
//!
//! - `v3` and `v2`: x86-64 with AVX2, BMI, LZCNT and POPCNT, or with SSE4.2 and POPCNT. With the
//!   feature `std` the processor is asked once, and without it the level is that of the build. A
//!   build for v3 has no other level.
//! - `neon`: little-endian aarch64.
//! - `plain`: all other machines, without vectors.
//!
//! For tests, `--cfg cesu8_level="v2"` or `"plain"` leaves out the levels above it.
//!
//! The functions of this module are the calls of the crate at the level that is chosen: `by_level!`
//! defines each.
//!
//! Four macros depend on the level of a copy of the codec. `at_level!` defines a function with the
//! features of the level and calls it, and `call_at_level!` defines one that other modules call.
//! `table!` defines a static, which v2 imports from v3, and `block!` is the vector of 32 bytes. A
//! copy whose functions are not called leaves no machine code.
//!
//! In `at_level!`, `erase.py` marks the functions that Rattle always inlines and that pass no
//! vector: as `reader` if they have no `&mut` parameter, and otherwise as `loop` or `writer`. NEON
//! always inlines these, and v3 all but those with `loop`. In v2 the compiler decides.

#[cfg(all(target_arch = "x86_64", not(any(miri, cesu8_level = "plain"))))]
pub(crate) mod x86;
#[cfg(all(target_arch = "x86_64", not(any(miri, cesu8_level = "plain"))))]
use self::x86::by_level;

#[cfg(all(
    target_arch = "aarch64",
    target_endian = "little",
    not(any(miri, cesu8_level = "plain"))
))]
pub(crate) mod aarch64;
#[cfg(all(
    target_arch = "aarch64",
    target_endian = "little",
    not(any(miri, cesu8_level = "plain"))
))]
use self::aarch64::by_level;

#[cfg(any(
    miri,
    cesu8_level = "plain",
    not(any(target_arch = "x86_64", all(target_arch = "aarch64", target_endian = "little")))
))]
macro_rules! by_level {
    ($name:ident($($argument:ident: $type:ty),*) -> $result:ty, $($path:tt)*) => {
        pub(crate) use crate::plain::$($path)*;
    };
}

// If there is only one level, `by_level!` needs no types.
#[allow(unused_imports)]
use alloc::{borrow::Cow, vec::Vec};
#[allow(unused_imports)]
use core::cmp::Ordering;

#[allow(unused_imports)]
use crate::{DecodingError, SliceError};

/// Defines functions that call those of the chosen level, in its module of this name if one is
/// given.
macro_rules! chosen {
    ($($module:ident)? { $($name:ident($($argument:ident: $type:ty),*) -> $result:ty;)* }) => {
        chosen! { @ ($($module::)?) $($name($($argument: $type),*) -> $result;)* }
    };
    (@ $path:tt $($name:ident($($argument:ident: $type:ty),*) -> $result:ty;)*) => {
        $(chosen! { @each $path $name($($argument: $type),*) -> $result })*
    };
    (@each ($($path:tt)*) $name:ident $($signature:tt)*) => {
        by_level! { $name $($signature)*, $($path)* $name }
    };
}

/// Defines the calls of an encoding.
macro_rules! calls_of {
    ($module:ident) => {
        pub(crate) mod $module {
            #[allow(unused_imports)]
            use super::*;

            chosen! { $module {
                contains_changed(bytes: &[u8]) -> bool;
                encoded_len(text: &str) -> usize;
                encode(text: &str) -> Cow<'_, [u8]>;
                encode_into(text: &str, buf: &mut Vec<u8>) -> ();
                decode_strict(bytes: &[u8]) -> Result<Cow<'_, str>, DecodingError>;
                decode(bytes: &[u8]) -> Result<Cow<'_, str>, DecodingError>;
                decode_lossy_strict(bytes: &[u8]) -> Cow<'_, str>;
                decode_lossy(bytes: &[u8]) -> Cow<'_, str>;
                decoded_len(bytes: &[u8]) -> Option<usize>;
                lossy_len(bytes: &[u8]) -> Option<usize>;
                valid_up_to(bytes: &[u8]) -> usize;
                encode_to_slice(text: &str, buf: &mut [u8]) -> SliceResult;
                decode_strict_to_slice(bytes: &[u8], buf: &mut [u8]) -> SliceResult;
                decode_lossy_strict_to_slice(bytes: &[u8], buf: &mut [u8]) -> SliceResult;
            } }
        }
    };
}

#[allow(dead_code)]
type SliceResult = Result<usize, SliceError>;

calls_of!(of_cesu8);
calls_of!(of_mutf8);

chosen! { {
    utf16_len(text: &str) -> usize;
    compare_as_utf16(text: &str, other: &str) -> Ordering;
} }
