//! The level of aarch64: NEON, which every build for it may use.
//!
//! `level.rs` says what each macro is for. They take the same arguments as those of the levels in
//! `x86.rs`, and ignore some of them: with NEON in every build, no function is `unsafe` or
//! needs `target_feature`, and each table is a static of this level.

macro_rules! at_level {
    // `reader`, `writer` or `loop`, which `erase.py` adds to a function that is always inlined in
    // Rattle and passes no vector. In a debug build, inlining all of these would take minutes.
    ($passes:ident { $($function:tt)* } $call:expr) => {
        #[cfg_attr(not(debug_assertions), inline(always))]
        $($function)*
        $call
    };
    ($(#[$hint:meta])? { $($function:tt)* } $call:expr) => {
        $(#[$hint])?
        $($function)*
        $call
    };
}

macro_rules! call_at_level {
    ($($function:tt)*) => {
        #[inline(never)]
        pub $($function)*
    };
}

macro_rules! table {
    ($module:tt $(#[$doc:meta])* static $($table:tt)*) => {
        $(#[$doc])*
        pub(crate) static $($table)*
    };
}

macro_rules! block {
    () => {
        Pair<core::arch::aarch64::uint8x16_t>
    };
}

#[path = "../codec/mod.rs"]
pub(crate) mod neon;

macro_rules! by_level {
    ($name:ident($($argument:ident: $type:ty),*) -> $result:ty, $($path:tt)*) => {
        pub(crate) use $crate::level::aarch64::neon::surface::$($path)*;
    };
}
pub(crate) use by_level;
