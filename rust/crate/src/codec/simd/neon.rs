//! Vectors of 16 bytes by NEON, which every build for aarch64 may use: `SAFETY: NEON.` means this.
//!
//! Functions are always inlined only without debug assertions, since otherwise a debug build would
//! take minutes.
#![allow(unused_unsafe)] // Later compilers call some of these without `unsafe`.

use core::arch::aarch64::*;

use super::{Run, Vector};

pub type Half = uint8x16_t;

/// The bit of each lane in the mask of its eight lanes.
const BIT_OF_LANE: [u8; 16] = [1, 2, 4, 8, 16, 32, 64, 128, 1, 2, 4, 8, 16, 32, 64, 128];

/// Defines the methods that are one instruction.
macro_rules! instructions {
    ($($name:ident($($other:ident),*) = $of:ident;)*) => {
        $(#[cfg_attr(not(debug_assertions), inline(always))]
        fn $name(self, $($other: Self),*) -> Self {
            // SAFETY: NEON.
            unsafe { $of(self, $($other),*) }
        })*
    };
}

/// Eight lanes as a number, the first lowest.
#[cfg_attr(not(debug_assertions), inline(always))]
pub fn low(lanes: Half) -> u64 {
    // SAFETY: NEON.
    unsafe { vgetq_lane_u64::<0>(vreinterpretq_u64_u8(lanes)) }
}

/// Eight lanes from a number, followed by zeros.
#[cfg_attr(not(debug_assertions), inline(always))]
pub fn of_low(low: u64) -> Half {
    // SAFETY: NEON.
    unsafe { vreinterpretq_u8_u64(vsetq_lane_u64::<0>(low, vdupq_n_u64(0))) }
}

impl Vector for uint8x16_t {
    instructions! {
        and(other) = vandq_u8;
        or(other) = vorrq_u8;
        xor(other) = veorq_u8;
        add(other) = vaddq_u8;
        sub(other) = vsubq_u8;
        saturating_sub(other) = vqsubq_u8;
        min(other) = vminq_u8;
        max(other) = vmaxq_u8;
        eq(other) = vceqq_u8;
        look_up(indices) = vqtbl1q_u8;
        select(yes, no) = vbslq_u8;
    }

    #[cfg_attr(not(debug_assertions), inline(always))]
    unsafe fn load(from: *const u8) -> Self {
        // SAFETY: the caller's, and NEON.
        unsafe { vld1q_u8(from) }
    }

    #[cfg_attr(not(debug_assertions), inline(always))]
    unsafe fn store(self, to: *mut u8) {
        // SAFETY: the caller's, and NEON.
        unsafe { vst1q_u8(to, self) }
    }

    #[cfg_attr(not(debug_assertions), inline(always))]
    fn splat(value: u8) -> Self {
        // SAFETY: NEON.
        unsafe { vdupq_n_u8(value) }
    }

    #[cfg_attr(not(debug_assertions), inline(always))]
    fn shl(self, by: u32) -> Self {
        // SAFETY: NEON.
        unsafe { vshlq_u8(self, vdupq_n_s8(by as i8)) }
    }

    #[cfg_attr(not(debug_assertions), inline(always))]
    fn shr(self, by: u32) -> Self {
        // SAFETY: NEON.
        unsafe { vshlq_u8(self, vdupq_n_s8(-(by as i8))) }
    }

    #[cfg_attr(not(debug_assertions), inline(always))]
    fn bits(self) -> u64 {
        // SAFETY: an array of 16 bytes, and NEON.
        unsafe {
            let bits = vandq_u8(self, vld1q_u8(BIT_OF_LANE.as_ptr()));
            // Three sums of neighbors join the bits of eight lanes in one byte.
            let bits = vpaddq_u8(bits, bits);
            let bits = vpaddq_u8(bits, bits);
            let bits = vpaddq_u8(bits, bits);
            u64::from(vgetq_lane_u16::<0>(vreinterpretq_u16_u8(bits)))
        }
    }

    #[cfg_attr(not(debug_assertions), inline(always))]
    fn bits_of_two(first: Self, second: Self) -> u64 {
        // SAFETY: an array of 16 bytes, and NEON.
        unsafe {
            let bit_of_lane = vld1q_u8(BIT_OF_LANE.as_ptr());
            let bits = vpaddq_u8(vandq_u8(first, bit_of_lane), vandq_u8(second, bit_of_lane));
            let bits = vpaddq_u8(bits, bits);
            let bits = vpaddq_u8(bits, bits);
            u64::from(vgetq_lane_u32::<0>(vreinterpretq_u32_u8(bits)))
        }
    }

    #[cfg_attr(not(debug_assertions), inline(always))]
    fn bits_of_four([first, second, third, fourth]: [Self; 4]) -> u64 {
        // SAFETY: an array of 16 bytes, and NEON.
        unsafe {
            let bit_of_lane = vld1q_u8(BIT_OF_LANE.as_ptr());
            let front = vpaddq_u8(vandq_u8(first, bit_of_lane), vandq_u8(second, bit_of_lane));
            let back = vpaddq_u8(vandq_u8(third, bit_of_lane), vandq_u8(fourth, bit_of_lane));
            let bits = vpaddq_u8(front, back);
            let bits = vpaddq_u8(bits, bits);
            vgetq_lane_u64::<0>(vreinterpretq_u64_u8(bits))
        }
    }

    #[cfg_attr(not(debug_assertions), inline(always))]
    fn any(self) -> bool {
        // SAFETY: NEON.
        unsafe { vmaxvq_u8(self) != 0 }
    }

    #[cfg_attr(not(debug_assertions), inline(always))]
    fn sum(self) -> u32 {
        // SAFETY: NEON.
        u32::from(unsafe { vaddlvq_u8(self) })
    }

    #[cfg_attr(not(debug_assertions), inline(always))]
    fn half(self, _: usize) -> Half {
        self
    }

    #[cfg_attr(not(debug_assertions), inline(always))]
    fn of_halves(first: Half, _: Half) -> Self {
        first
    }

    #[cfg_attr(not(debug_assertions), inline(always))]
    fn run<R: Run>(self, second: Self) -> Self {
        macro_rules! by {
            ($($n:literal)*) => {
                match const { R::BY } {
                    // SAFETY: NEON.
                    $($n => unsafe { vextq_u8::<$n>(self, second) },)*
                    _ => unreachable!(),
                }
            };
        }
        by!(1 2 3 4 5 6 7 8 9 10 11 12 13 14 15)
    }
}
