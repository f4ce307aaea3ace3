//! Vectors of 16 bytes by SSE2, SSSE3 and SSE4.1, and of 32 by AVX2.
//!
//! Each function is inlined into one that has the features of its level (`at_level!`), and that
//! runs only on a processor which has them: `SAFETY: the level has the instruction.` means this.
//! Level v2 has no vectors of 32 bytes. Functions are always inlined only without debug assertions,
//! since otherwise a debug build would take minutes.
#![allow(unused_unsafe)] // Later compilers call some of these without `unsafe`.

use core::arch::x86_64::*;

use super::{Run, Vector};

pub type Half = __m128i;

/// Defines the methods that are one instruction.
macro_rules! instructions {
    ($($name:ident($($other:ident),*) = $of:ident;)*) => {
        $(#[cfg_attr(not(debug_assertions), inline(always))]
        fn $name(self, $($other: Self),*) -> Self {
            // SAFETY: the level has the instruction.
            unsafe { $of(self, $($other),*) }
        })*
    };
}

/// Eight lanes as a number, the first lowest.
#[cfg_attr(not(debug_assertions), inline(always))]
pub fn low(lanes: Half) -> u64 {
    // SAFETY: the level has the instruction.
    unsafe { _mm_cvtsi128_si64(lanes) as u64 }
}

/// Eight lanes from a number, followed by zeros.
#[cfg_attr(not(debug_assertions), inline(always))]
pub fn of_low(low: u64) -> Half {
    // SAFETY: the level has the instruction.
    unsafe { _mm_cvtsi64_si128(low as i64) }
}

/// Calls `$align` with a constant, which these instructions need.
macro_rules! align {
    ($align:ident($second:expr, $first:expr, $by:expr)) => {
        align!($align($second, $first, $by) 1 2 3 4 5 6 7 8 9 10 11 12 13 14 15)
    };
    ($align:ident($second:expr, $first:expr, $by:expr) $($n:literal)*) => {
        match $by {
            $($n => $align::<$n>($second, $first),)*
            _ => unreachable!(),
        }
    };
}

impl Vector for __m128i {
    instructions! {
        and(other) = _mm_and_si128;
        or(other) = _mm_or_si128;
        xor(other) = _mm_xor_si128;
        add(other) = _mm_add_epi8;
        sub(other) = _mm_sub_epi8;
        saturating_sub(other) = _mm_subs_epu8;
        min(other) = _mm_min_epu8;
        max(other) = _mm_max_epu8;
        eq(other) = _mm_cmpeq_epi8;
        look_up(indices) = _mm_shuffle_epi8;
    }

    #[cfg_attr(not(debug_assertions), inline(always))]
    unsafe fn load(from: *const u8) -> Self {
        // SAFETY: the caller's; the level has the instruction.
        unsafe { _mm_loadu_si128(from.cast()) }
    }

    #[cfg_attr(not(debug_assertions), inline(always))]
    unsafe fn store(self, to: *mut u8) {
        // SAFETY: the caller's; the level has the instruction.
        unsafe { _mm_storeu_si128(to.cast(), self) }
    }

    #[cfg_attr(not(debug_assertions), inline(always))]
    fn splat(value: u8) -> Self {
        // SAFETY: the level has the instruction.
        unsafe { _mm_set1_epi8(value as i8) }
    }

    #[cfg_attr(not(debug_assertions), inline(always))]
    fn select(self, yes: Self, no: Self) -> Self {
        // SAFETY: the level has the instruction.
        unsafe { _mm_blendv_epi8(no, yes, self) }
    }

    // There is no shift of bytes: words are shifted, and the bits that cross into a neighbor are
    // cleared.
    #[cfg_attr(not(debug_assertions), inline(always))]
    fn shl(self, by: u32) -> Self {
        // SAFETY: the level has the instruction.
        unsafe { _mm_sll_epi16(self, _mm_cvtsi32_si128(by as i32)) }.and(Self::splat(0xFF << by))
    }

    #[cfg_attr(not(debug_assertions), inline(always))]
    fn shr(self, by: u32) -> Self {
        // SAFETY: the level has the instruction.
        unsafe { _mm_srl_epi16(self, _mm_cvtsi32_si128(by as i32)) }.and(Self::splat(0xFF >> by))
    }

    #[cfg_attr(not(debug_assertions), inline(always))]
    fn bits(self) -> u64 {
        // SAFETY: the level has the instruction.
        u64::from(unsafe { _mm_movemask_epi8(self) } as u32)
    }

    #[cfg_attr(not(debug_assertions), inline(always))]
    fn any(self) -> bool {
        self.bits() != 0
    }

    #[cfg_attr(not(debug_assertions), inline(always))]
    fn sum(self) -> u32 {
        // SAFETY: the level has the instructions.
        unsafe {
            let sums = _mm_sad_epu8(self, _mm_setzero_si128());
            _mm_cvtsi128_si32(_mm_add_epi32(sums, _mm_unpackhi_epi64(sums, sums))) as u32
        }
    }

    #[cfg_attr(not(debug_assertions), inline(always))]
    fn half(self, _: usize) -> Half {
        self
    }

    #[cfg_attr(not(debug_assertions), inline(always))]
    fn of_halves(first: Half, _: Half) -> Self {
        first
    }

    #[cfg_attr(not(debug_assertions), inline(always))]
    fn run<R: Run>(self, second: Self) -> Self {
        // SAFETY: the level has the instruction.
        unsafe { align!(_mm_alignr_epi8(second, self, const { R::BY })) }
    }
}

impl Vector for __m256i {
    instructions! {
        and(other) = _mm256_and_si256;
        or(other) = _mm256_or_si256;
        xor(other) = _mm256_xor_si256;
        add(other) = _mm256_add_epi8;
        sub(other) = _mm256_sub_epi8;
        saturating_sub(other) = _mm256_subs_epu8;
        min(other) = _mm256_min_epu8;
        max(other) = _mm256_max_epu8;
        eq(other) = _mm256_cmpeq_epi8;
        look_up(indices) = _mm256_shuffle_epi8;
    }

    #[cfg_attr(not(debug_assertions), inline(always))]
    unsafe fn load(from: *const u8) -> Self {
        // SAFETY: the caller's; the level has the instruction.
        unsafe { _mm256_loadu_si256(from.cast()) }
    }

    #[cfg_attr(not(debug_assertions), inline(always))]
    unsafe fn store(self, to: *mut u8) {
        // SAFETY: the caller's; the level has the instruction.
        unsafe { _mm256_storeu_si256(to.cast(), self) }
    }

    #[cfg_attr(not(debug_assertions), inline(always))]
    fn splat(value: u8) -> Self {
        // SAFETY: the level has the instruction.
        unsafe { _mm256_set1_epi8(value as i8) }
    }

    #[cfg_attr(not(debug_assertions), inline(always))]
    fn select(self, yes: Self, no: Self) -> Self {
        // SAFETY: the level has the instruction.
        unsafe { _mm256_blendv_epi8(no, yes, self) }
    }

    #[cfg_attr(not(debug_assertions), inline(always))]
    fn shl(self, by: u32) -> Self {
        // SAFETY: the level has the instruction.
        unsafe { _mm256_sll_epi16(self, _mm_cvtsi32_si128(by as i32)) }.and(Self::splat(0xFF << by))
    }

    #[cfg_attr(not(debug_assertions), inline(always))]
    fn shr(self, by: u32) -> Self {
        // SAFETY: the level has the instruction.
        unsafe { _mm256_srl_epi16(self, _mm_cvtsi32_si128(by as i32)) }.and(Self::splat(0xFF >> by))
    }

    #[cfg_attr(not(debug_assertions), inline(always))]
    fn bits(self) -> u64 {
        // SAFETY: the level has the instruction.
        u64::from(unsafe { _mm256_movemask_epi8(self) } as u32)
    }

    #[cfg_attr(not(debug_assertions), inline(always))]
    fn any(self) -> bool {
        self.bits() != 0
    }

    #[cfg_attr(not(debug_assertions), inline(always))]
    fn sum(self) -> u32 {
        // SAFETY: the level has the instruction.
        let sums = unsafe { _mm256_sad_epu8(self, _mm256_setzero_si256()) };
        // Each of the four sums is below 2^11, so additions of 32 bits lose nothing.
        let sums = unsafe { _mm_add_epi32(sums.half(0), sums.half(1)) };
        // SAFETY: the level has the instructions.
        unsafe { _mm_cvtsi128_si32(_mm_add_epi32(sums, _mm_unpackhi_epi64(sums, sums))) as u32 }
    }

    #[cfg_attr(not(debug_assertions), inline(always))]
    fn half(self, at: usize) -> Half {
        // SAFETY: the level has the instructions.
        unsafe {
            if at == 0 { _mm256_castsi256_si128(self) } else { _mm256_extracti128_si256::<1>(self) }
        }
    }

    #[cfg_attr(not(debug_assertions), inline(always))]
    fn of_halves(first: Half, second: Half) -> Self {
        // SAFETY: the level has the instruction.
        unsafe { _mm256_set_m128i(second, first) }
    }

    #[cfg_attr(not(debug_assertions), inline(always))]
    fn run<R: Run>(self, second: Self) -> Self {
        // SAFETY: the level has the instructions.
        unsafe {
            // The half that precedes each half of `second`: `alignr` works on each half alone.
            let middle = _mm256_permute2x128_si256::<0x21>(self, second);
            align!(_mm256_alignr_epi8(second, middle, const { R::BY }))
        }
    }
}
