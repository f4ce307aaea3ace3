//! The levels of x86-64. `level.rs` says what each macro is for. The first four are those of v3,
//! and the next four, with the same names, those of v2. Then come the definitions of `by_level!`,
//! one for each kind of build. A function that is always inlined gets the features of its caller,
//! since Rust does not allow `inline(always)` beside `target_feature`.

macro_rules! at_level {
    (loop { $($function:tt)* } $call:expr) => {
        #[target_feature(enable = "avx2,bmi1,bmi2,lzcnt,popcnt")]
        unsafe $($function)*
        // SAFETY: this level is called only if the processor has its features.
        unsafe { $call }
    };
    ($passes:ident { $($function:tt)* } $call:expr) => {
        #[cfg_attr(not(debug_assertions), inline(always))]
        $($function)*
        $call
    };
    ($(#[$hint:meta])? { $($function:tt)* } $call:expr) => {
        #[target_feature(enable = "avx2,bmi1,bmi2,lzcnt,popcnt")]
        $(#[$hint])?
        unsafe $($function)*
        // SAFETY: this level is called only if the processor has its features.
        unsafe { $call }
    };
}
macro_rules! call_at_level {
    ($($function:tt)*) => {
        #[target_feature(enable = "avx2,bmi1,bmi2,lzcnt,popcnt")]
        #[inline(never)]
        pub unsafe $($function)*
    };
}
macro_rules! table {
    ($module:tt $(#[$doc:meta])* static $($table:tt)*) => {
        $(#[$doc])*
        pub(crate) static $($table)*
    };
}
macro_rules! block {
    () => {
        core::arch::x86_64::__m256i
    };
}
#[path = "../codec/mod.rs"]
pub(crate) mod v3;

// The macros of v2. Few processors have v2 and not v3, so no function is inlined for speed alone.
#[allow(unused_macros)] // A build for v3 has no v2.
macro_rules! at_level {
    (loop $($function:tt)*) => { at_level! { writer $($function)* } };
    ($($passes:ident)? $(#[inline $($never:tt)?])? { $($function:tt)* } $call:expr) => {
        #[target_feature(enable = "sse3,ssse3,sse4.1,sse4.2,popcnt")]
        $($(#[inline $never])?)?
        unsafe $($function)*
        // SAFETY: this level is called only if the processor has its features.
        unsafe { $call }
    };
}
#[allow(unused_macros)]
macro_rules! call_at_level {
    ($($function:tt)*) => {
        #[target_feature(enable = "sse3,ssse3,sse4.1,sse4.2,popcnt")]
        #[inline(never)]
        pub unsafe $($function)*
    };
}
#[allow(unused_macros)]
macro_rules! table {
    (($($module:tt)*) $(#[$doc:meta])* static $name:ident: $($value:tt)*) => {
        use crate::level::x86::v3::$($module)*::$name;
    };
}
#[allow(unused_macros)]
macro_rules! block {
    () => {
        Pair<core::arch::x86_64::__m128i>
    };
}
#[cfg(any(
    test,
    cesu8_level = "v2",
    not(all(
        target_feature = "avx2",
        target_feature = "bmi1",
        target_feature = "bmi2",
        target_feature = "lzcnt",
        target_feature = "popcnt"
    ))
))]
#[path = "../codec/mod.rs"]
pub(crate) mod v2;

// A build for v3.
#[cfg(all(
    target_feature = "avx2",
    target_feature = "bmi1",
    target_feature = "bmi2",
    target_feature = "lzcnt",
    target_feature = "popcnt",
    not(cesu8_level = "v2")
))]
macro_rules! by_level {
    ($name:ident($($argument:ident: $type:ty),*) -> $result:ty, $($path:tt)*) => {
        #[inline]
        pub(crate) fn $name($($argument: $type),*) -> $result {
            // SAFETY: the build is for processors with the level's features.
            unsafe { $crate::level::x86::v3::surface::$($path)*($($argument),*) }
        }
    };
}

// Other builds, if the processor can be asked. A static has the function to call. At first it is
// one that asks the processor, and stores the function of its level there.
#[cfg(all(
    feature = "std",
    not(all(
        target_feature = "avx2",
        target_feature = "bmi1",
        target_feature = "bmi2",
        target_feature = "lzcnt",
        target_feature = "popcnt",
        not(cesu8_level = "v2")
    ))
))]
macro_rules! by_level {
    ($name:ident($($argument:ident: $type:ty),*) -> $result:ty, $($path:tt)*) => {
        #[inline]
        pub(crate) fn $name($($argument: $type),*) -> $result {
            use core::sync::atomic;

            use $crate::level::x86::Level;

            type Call = unsafe fn($($type),*) -> $result;

            static CALL: atomic::AtomicPtr<()> = atomic::AtomicPtr::new(choose as Call as *mut ());

            #[cold]
            #[inline(never)]
            fn choose($($argument: $type),*) -> $result {
                let call: Call = match $crate::level::x86::detected() {
                    #[cfg(not(cesu8_level = "v2"))]
                    Level::V3 => $crate::level::x86::v3::surface::$($path)*,
                    Level::V2 => $crate::level::x86::v2::surface::$($path)*,
                    Level::Plain => $crate::plain::$($path)*,
                };
                CALL.store(call as *mut (), atomic::Ordering::Relaxed);
                // SAFETY: the processor has the level's features.
                unsafe { call($($argument),*) }
            }

            let call = CALL.load(atomic::Ordering::Relaxed);
            // SAFETY: a `Call`: `choose`, or that of a level whose features the processor has.
            unsafe { core::mem::transmute::<*mut (), Call>(call)($($argument),*) }
        }
    };
}

// Other builds, if it can't be asked: v2 if the build is for it, and otherwise `plain`.
#[cfg(all(
    not(feature = "std"),
    target_feature = "sse4.2",
    target_feature = "popcnt",
    not(all(
        target_feature = "avx2",
        target_feature = "bmi1",
        target_feature = "bmi2",
        target_feature = "lzcnt",
        not(cesu8_level = "v2")
    ))
))]
macro_rules! by_level {
    ($name:ident($($argument:ident: $type:ty),*) -> $result:ty, $($path:tt)*) => {
        #[inline]
        pub(crate) fn $name($($argument: $type),*) -> $result {
            // SAFETY: the build is for processors with the level's features.
            unsafe { $crate::level::x86::v2::surface::$($path)*($($argument),*) }
        }
    };
}
#[cfg(all(not(feature = "std"), not(all(target_feature = "sse4.2", target_feature = "popcnt"))))]
macro_rules! by_level {
    ($name:ident($($argument:ident: $type:ty),*) -> $result:ty, $($path:tt)*) => {
        pub(crate) use $crate::plain::$($path)*;
    };
}

pub(crate) use by_level;

/// A level that a processor may have.
#[cfg(feature = "std")]
#[allow(dead_code)] // A build for v3 asks no processor.
pub(crate) enum Level {
    #[cfg(not(cesu8_level = "v2"))]
    V3,
    V2,
    Plain,
}

/// Returns the level of the processor. `std` asks it once.
#[cfg(feature = "std")]
#[allow(dead_code)]
pub(crate) fn detected() -> Level {
    let has_v2 = is_x86_feature_detected!("ssse3")
        && is_x86_feature_detected!("sse4.1")
        && is_x86_feature_detected!("sse4.2")
        && is_x86_feature_detected!("popcnt");
    #[cfg(not(cesu8_level = "v2"))]
    if has_v2
        && is_x86_feature_detected!("avx2")
        && is_x86_feature_detected!("bmi1")
        && is_x86_feature_detected!("bmi2")
        && is_x86_feature_detected!("lzcnt")
    {
        return Level::V3;
    }
    if has_v2 { Level::V2 } else { Level::Plain }
}
