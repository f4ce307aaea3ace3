//! What the codec uses of `std::simd`, on stable Rust: vectors of bytes, as vectors of the machine.
//!
//! Each level has its own copy of this module. `block!()` is its vector of 32 bytes: one of the
//! machine if it has such vectors, and otherwise a pair of vectors of 16 bytes.

use core::marker::PhantomData;
use core::ops::{Add, BitAnd, BitOr, BitXor, Not, Shl, Shr, Sub};

#[cfg(target_arch = "aarch64")]
mod neon;
#[cfg(target_arch = "x86_64")]
mod x86;

#[cfg(target_arch = "aarch64")]
use self::neon as machine;
#[cfg(target_arch = "x86_64")]
use self::x86 as machine;

use self::machine::Half;
use crate::panics::vector_out_of_bounds;

/// A vector of the machine, or what stands for one. In a mask each lane has either a mark, which is
/// all ones, or zeros.
pub trait Vector: Copy {
    /// Loads as many bytes as it has lanes.
    ///
    /// # Safety
    ///
    /// So many bytes can be read there. They need no alignment.
    unsafe fn load(from: *const u8) -> Self;

    /// Stores the lanes.
    ///
    /// # Safety
    ///
    /// So many bytes can be written there. They need no alignment.
    unsafe fn store(self, to: *mut u8);

    fn splat(value: u8) -> Self;
    fn and(self, other: Self) -> Self;
    fn or(self, other: Self) -> Self;
    fn xor(self, other: Self) -> Self;
    fn add(self, other: Self) -> Self;
    fn sub(self, other: Self) -> Self;
    fn saturating_sub(self, other: Self) -> Self;
    fn min(self, other: Self) -> Self;
    fn max(self, other: Self) -> Self;

    /// Marks the lanes that are equal.
    fn eq(self, other: Self) -> Self;

    /// Takes each lane from the 16 lanes of `self` that include it, by an index below 16. An index
    /// from 128 on gives 0.
    fn look_up(self, indices: Self) -> Self;

    /// Takes each lane of `yes` if `self` has a mark there, and otherwise that of `no`.
    fn select(self, yes: Self, no: Self) -> Self;

    fn shl(self, by: u32) -> Self;
    fn shr(self, by: u32) -> Self;

    /// Returns a bit for each mark, the lowest for the first lane.
    fn bits(self) -> u64;

    /// Returns the bits of two vectors in a row.
    #[cfg_attr(not(debug_assertions), inline(always))]
    fn bits_of_two(first: Self, second: Self) -> u64 {
        first.bits() | second.bits() << size_of::<Self>()
    }

    /// Returns the bits of four vectors of 16 lanes in a row.
    #[cfg_attr(not(debug_assertions), inline(always))]
    fn bits_of_four([first, second, third, fourth]: [Self; 4]) -> u64 {
        const { assert!(size_of::<Self>() == 16) };
        Self::bits_of_two(first, second) | Self::bits_of_two(third, fourth) << 32
    }

    /// Returns whether there is a mark.
    fn any(self) -> bool;

    /// Returns the sum of the lanes.
    fn sum(self) -> u32;

    /// Returns 16 of the lanes, from `16 * at` on.
    fn half(self, at: usize) -> Half;

    /// Returns these 32 lanes, or as many of the first as the vector has.
    fn of_halves(first: Half, second: Half) -> Self;

    /// Returns lanes of `self` and `second` in a row, from lane `R::BY` of the last 16 of `self`
    /// on.
    fn run<R: Run>(self, second: Self) -> Self;
}

/// From which lane a run begins: 1 to 15.
pub trait Run {
    const BY: usize;
}

/// `N` lanes: 1, 2, 4, 8, 16, 32 or 64.
pub struct Width<const N: usize>;

/// Which vector has the lanes.
pub trait Lanes {
    type Vector: Vector;
}

macro_rules! widths {
    ($($lanes:literal = $vector:ty;)*) => {
        $(impl Lanes for Width<$lanes> {
            type Vector = $vector;
        })*
    };
}

widths! {
    1 = Low<1>;
    2 = Low<2>;
    4 = Low<4>;
    8 = Low<8>;
    16 = Half;
    32 = block!();
    64 = Pair<block!()>;
}

/// The first lanes of a vector of 16. The others are ignored.
#[derive(Clone, Copy)]
pub struct Low<const N: usize>(Half);

/// Two vectors, one after the other.
#[derive(Clone, Copy)]
pub struct Pair<V>(V, V);

/// Forwards the methods that work lane by lane.
macro_rules! lane_by_lane {
    ($pair:ident; $($name:ident($($other:ident),*);)*) => {
        $(#[cfg_attr(not(debug_assertions), inline(always))]
        fn $name(self, $($other: Self),*) -> Self {
            lane_by_lane!(@$pair self $name $($other)*)
        })*
    };
    (@low $self:ident $name:ident $($other:ident)*) => { Low($self.0.$name($($other.0),*)) };
    (@pair $self:ident $name:ident $($other:ident)*) => {
        Pair($self.0.$name($($other.0),*), $self.1.$name($($other.1),*))
    };
    ($kind:ident) => {
        lane_by_lane! {
            $kind;
            and(other);
            or(other);
            xor(other);
            add(other);
            sub(other);
            saturating_sub(other);
            min(other);
            max(other);
            eq(other);
            look_up(indices);
            select(yes, no);
        }
    };
}

impl<const N: usize> Vector for Low<N> {
    lane_by_lane!(low);

    #[cfg_attr(not(debug_assertions), inline(always))]
    unsafe fn load(from: *const u8) -> Self {
        // SAFETY: the caller's.
        let low = unsafe {
            match N {
                1 => u64::from(*from),
                2 => u64::from(u16::from_le_bytes(*from.cast())),
                4 => u64::from(u32::from_le_bytes(*from.cast())),
                8 => u64::from_le_bytes(*from.cast()),
                _ => unreachable!(),
            }
        };
        Low(machine::of_low(low))
    }

    #[cfg_attr(not(debug_assertions), inline(always))]
    unsafe fn store(self, to: *mut u8) {
        let bytes = machine::low(self.0).to_le_bytes();
        // SAFETY: the caller's. `N` is at most 8.
        unsafe { to.copy_from_nonoverlapping(bytes.as_ptr(), N) }
    }

    #[cfg_attr(not(debug_assertions), inline(always))]
    fn splat(value: u8) -> Self {
        Low(Half::splat(value))
    }

    #[cfg_attr(not(debug_assertions), inline(always))]
    fn shl(self, by: u32) -> Self {
        Low(self.0.shl(by))
    }

    #[cfg_attr(not(debug_assertions), inline(always))]
    fn shr(self, by: u32) -> Self {
        Low(self.0.shr(by))
    }

    #[cfg_attr(not(debug_assertions), inline(always))]
    fn bits(self) -> u64 {
        self.0.bits() & ((1 << N) - 1)
    }

    #[cfg_attr(not(debug_assertions), inline(always))]
    fn any(self) -> bool {
        self.bits() != 0
    }

    #[cfg_attr(not(debug_assertions), inline(always))]
    fn sum(self) -> u32 {
        machine::of_low(machine::low(self.0) & (u64::MAX >> (64 - 8 * N))).sum()
    }

    #[cfg_attr(not(debug_assertions), inline(always))]
    fn half(self, _: usize) -> Half {
        self.0
    }

    #[cfg_attr(not(debug_assertions), inline(always))]
    fn of_halves(first: Half, _: Half) -> Self {
        Low(first)
    }

    fn run<R: Run>(self, _: Self) -> Self {
        unreachable!()
    }
}

impl<V: Vector> Vector for Pair<V> {
    lane_by_lane!(pair);

    #[cfg_attr(not(debug_assertions), inline(always))]
    unsafe fn load(from: *const u8) -> Self {
        // SAFETY: the caller's, for each half.
        unsafe { Pair(V::load(from), V::load(from.add(size_of::<V>()))) }
    }

    #[cfg_attr(not(debug_assertions), inline(always))]
    unsafe fn store(self, to: *mut u8) {
        // SAFETY: the caller's, for each half.
        unsafe {
            self.0.store(to);
            self.1.store(to.add(size_of::<V>()));
        }
    }

    #[cfg_attr(not(debug_assertions), inline(always))]
    fn splat(value: u8) -> Self {
        Pair(V::splat(value), V::splat(value))
    }

    #[cfg_attr(not(debug_assertions), inline(always))]
    fn shl(self, by: u32) -> Self {
        Pair(self.0.shl(by), self.1.shl(by))
    }

    #[cfg_attr(not(debug_assertions), inline(always))]
    fn shr(self, by: u32) -> Self {
        Pair(self.0.shr(by), self.1.shr(by))
    }

    #[cfg_attr(not(debug_assertions), inline(always))]
    fn bits(self) -> u64 {
        V::bits_of_two(self.0, self.1)
    }

    #[cfg_attr(not(debug_assertions), inline(always))]
    fn bits_of_two(first: Self, second: Self) -> u64 {
        V::bits_of_four([first.0, first.1, second.0, second.1])
    }

    #[cfg_attr(not(debug_assertions), inline(always))]
    fn any(self) -> bool {
        self.0.or(self.1).any()
    }

    #[cfg_attr(not(debug_assertions), inline(always))]
    fn sum(self) -> u32 {
        self.0.sum() + self.1.sum()
    }

    #[cfg_attr(not(debug_assertions), inline(always))]
    fn half(self, at: usize) -> Half {
        let halves = size_of::<V>() / 16;
        if at < halves { self.0.half(at) } else { self.1.half(at - halves) }
    }

    #[cfg_attr(not(debug_assertions), inline(always))]
    fn of_halves(first: Half, second: Half) -> Self {
        const { assert!(size_of::<V>() == 16) };
        Pair(V::of_halves(first, second), V::of_halves(second, first))
    }

    #[cfg_attr(not(debug_assertions), inline(always))]
    fn run<R: Run>(self, second: Self) -> Self {
        const { assert!(size_of::<V>() == 16) };
        Pair(self.1.run::<R>(second.0), second.0.run::<R>(second.1))
    }
}

/// `N` lanes of bytes. `T` is `u8`.
pub struct Simd<T, const N: usize>(<Width<N> as Lanes>::Vector, PhantomData<T>)
where
    Width<N>: Lanes;

/// A mark for each of `N` lanes, or none. `T` is `i8`.
pub struct Mask<T, const N: usize>(<Width<N> as Lanes>::Vector, PhantomData<T>)
where
    Width<N>: Lanes;

macro_rules! copies {
    ($($name:ident)*) => {
        $(impl<T, const N: usize> Clone for $name<T, N>
        where
            Width<N>: Lanes,
        {
            #[cfg_attr(not(debug_assertions), inline(always))]
            fn clone(&self) -> Self {
                *self
            }
        }

        impl<T, const N: usize> Copy for $name<T, N> where Width<N>: Lanes {})*
    };
}

copies!(Simd Mask);

#[allow(non_camel_case_types)]
mod names {
    use super::Simd;
    pub type u8x2 = Simd<u8, 2>;
    pub type u8x4 = Simd<u8, 4>;
    pub type u8x8 = Simd<u8, 8>;
    pub type u8x16 = Simd<u8, 16>;
    pub type u8x32 = Simd<u8, 32>;
    pub type u8x64 = Simd<u8, 64>;
}
pub use self::names::*;

const fn simd<const N: usize>(vector: <Width<N> as Lanes>::Vector) -> Simd<u8, N>
where
    Width<N>: Lanes,
{
    Simd(vector, PhantomData)
}

const fn mask<const N: usize>(vector: <Width<N> as Lanes>::Vector) -> Mask<i8, N>
where
    Width<N>: Lanes,
{
    Mask(vector, PhantomData)
}

macro_rules! of_two {
    ($($name:ident = $of:ident;)*) => {
        $(#[cfg_attr(not(debug_assertions), inline(always))]
        pub fn $name(self, other: Self) -> Self {
            simd(self.0.$of(other.0))
        })*
    };
}

macro_rules! operators {
    ($($trait:ident $name:ident = $of:ident;)*) => {
        $(impl<const N: usize> $trait for Simd<u8, N>
        where
            Width<N>: Lanes,
        {
            type Output = Self;

            #[cfg_attr(not(debug_assertions), inline(always))]
            fn $name(self, other: Self) -> Self {
                simd(self.0.$of(other.0))
            }
        })*
    };
}

operators! {
    BitAnd bitand = and;
    BitOr bitor = or;
    BitXor bitxor = xor;
    Add add = add;
    Sub sub = sub;
}

macro_rules! shifts {
    ($($trait:ident $name:ident;)*) => {
        $(impl<const N: usize> $trait for Simd<u8, N>
        where
            Width<N>: Lanes,
        {
            type Output = Self;

            /// The codec shifts all lanes by the same number of bits.
            #[cfg_attr(not(debug_assertions), inline(always))]
            fn $name(self, by: Self) -> Self {
                let bits = by.first();
                debug_assert!(bits < 8 && !by.simd_ne(Simd::splat(bits)).any());
                simd(self.0.$name(u32::from(bits)))
            }
        })*
    };
}

shifts! {
    Shl shl;
    Shr shr;
}

impl<const N: usize> Simd<u8, N>
where
    Width<N>: Lanes,
{
    #[cfg_attr(not(debug_assertions), inline(always))]
    pub fn splat(value: u8) -> Self {
        simd(Vector::splat(value))
    }

    #[cfg_attr(not(debug_assertions), inline(always))]
    pub fn from_array(lanes: [u8; N]) -> Self {
        Self::from_ref(&lanes)
    }

    #[cfg_attr(not(debug_assertions), inline(always))]
    pub fn from_ref(lanes: &[u8; N]) -> Self {
        // SAFETY: an array of `N` bytes.
        simd(unsafe { Vector::load(lanes.as_ptr()) })
    }

    #[cfg_attr(not(debug_assertions), inline(always))]
    pub fn to_array(self) -> [u8; N] {
        let mut lanes = [0; N];
        // SAFETY: an array of `N` bytes.
        unsafe { self.0.store(lanes.as_mut_ptr()) };
        lanes
    }

    /// Loads the first lanes of a slice, which has as many.
    #[cfg_attr(not(debug_assertions), inline(always))]
    pub fn from_slice(slice: &[u8]) -> Self {
        Self::from_slice_at(slice, 0)
    }

    /// Loads the lanes from an offset on.
    #[cfg_attr(not(debug_assertions), inline(always))]
    pub fn from_slice_at(slice: &[u8], at: usize) -> Self {
        if slice.len() < N || at > slice.len() - N {
            vector_out_of_bounds();
        }
        // SAFETY: `N` bytes follow the offset, by the test.
        simd(unsafe { Vector::load(slice.as_ptr().add(at)) })
    }

    /// Loads the lanes that begin `before` bytes before an offset. The compiler leaves out the
    /// tests that earlier loads have made: mostly one at the offset itself has tested the upper
    /// bound, and one from further before it that the offset is at least `before`.
    #[cfg_attr(not(debug_assertions), inline(always))]
    pub fn from_slice_before(slice: &[u8], at: usize, before: usize) -> Self {
        let len = slice.len();
        if len < N || at < before || at > len - N && at - before > len - N {
            vector_out_of_bounds();
        }
        // SAFETY: `N` bytes follow the offset less `before`, by the test.
        simd(unsafe { Vector::load(slice.as_ptr().add(at - before)) })
    }

    #[cfg_attr(not(debug_assertions), inline(always))]
    pub fn copy_to_slice(self, slice: &mut [u8]) {
        self.copy_to_slice_at(slice, 0);
    }

    /// Stores the lanes from an offset on.
    #[cfg_attr(not(debug_assertions), inline(always))]
    pub fn copy_to_slice_at(self, slice: &mut [u8], at: usize) {
        if slice.len() < N || at > slice.len() - N {
            vector_out_of_bounds();
        }
        // SAFETY: `N` bytes follow the offset, by the test.
        unsafe { self.0.store(slice.as_mut_ptr().add(at)) };
    }

    of_two! {
        simd_min = min;
        simd_max = max;
        saturating_sub = saturating_sub;
    }

    #[cfg_attr(not(debug_assertions), inline(always))]
    pub fn simd_eq(self, other: Self) -> Mask<i8, N> {
        mask(self.0.eq(other.0))
    }

    #[cfg_attr(not(debug_assertions), inline(always))]
    pub fn simd_ne(self, other: Self) -> Mask<i8, N> {
        !self.simd_eq(other)
    }

    #[cfg_attr(not(debug_assertions), inline(always))]
    pub fn simd_ge(self, other: Self) -> Mask<i8, N> {
        self.simd_max(other).simd_eq(self)
    }

    #[cfg_attr(not(debug_assertions), inline(always))]
    pub fn simd_lt(self, other: Self) -> Mask<i8, N> {
        !self.simd_ge(other)
    }

    /// Adds lanes whose sums fit.
    #[cfg_attr(not(debug_assertions), inline(always))]
    pub fn strict_add(self, other: Self) -> Self {
        let sum = self + other;
        debug_assert!(!sum.simd_lt(self).any());
        sum
    }

    /// Multiplies by weights, which in the codec are 1, and adds the products in groups of four.
    #[cfg_attr(not(debug_assertions), inline(always))]
    pub fn dot4(self, weights: Self) -> Sum {
        debug_assert!(!weights.simd_ne(Simd::splat(1)).any());
        Sum(self.0.sum())
    }

    #[cfg_attr(not(debug_assertions), inline(always))]
    pub fn extract<const START: usize, const LEN: usize>(self) -> Simd<u8, LEN>
    where
        Width<LEN>: Lanes,
    {
        const { assert!(START % 16 == 0 && START + LEN <= N && LEN == 16) };
        let half = self.0.half(START / 16);
        simd(Vector::of_halves(half, half))
    }

    /// Takes the lanes at constant positions.
    #[cfg_attr(not(debug_assertions), inline(always))]
    pub fn swizzle<const M: usize>(self, positions: impl Positions<M>) -> Simd<u8, M>
    where
        Width<M>: Lanes,
    {
        self.shuffle(self, positions)
    }

    /// Takes the lanes at constant positions, of which those from `N` on are in `second`.
    #[cfg_attr(not(debug_assertions), inline(always))]
    pub fn shuffle<const M: usize>(self, second: Self, positions: impl Positions<M>) -> Simd<u8, M>
    where
        Width<M>: Lanes,
    {
        shuffled(self, second, positions)
    }

    /// Takes each lane from its own 16 lanes.
    #[cfg_attr(not(debug_assertions), inline(always))]
    pub fn swizzle_dyn_within<const K: usize>(self, indices: Self) -> Self {
        const { assert!(K == 16 && N >= 16) };
        debug_assert!(
            !(indices.simd_ge(Simd::splat(16)) & indices.simd_lt(Simd::splat(128))).any()
        );
        simd(self.0.look_up(indices.0))
    }

    #[cfg_attr(not(debug_assertions), inline(always))]
    fn first(self) -> u8 {
        (machine::low(self.0.half(0)) & 0xFF) as u8
    }
}

impl Simd<u8, 16> {
    #[cfg_attr(not(debug_assertions), inline(always))]
    pub fn swizzle_dyn(self, indices: Self) -> Self {
        self.swizzle_dyn_within::<16>(indices)
    }
}

impl<const N: usize> Mask<i8, N>
where
    Width<N>: Lanes,
{
    #[cfg_attr(not(debug_assertions), inline(always))]
    pub fn splat(value: bool) -> Self {
        mask(Vector::splat(if value { 0xFF } else { 0 }))
    }

    #[cfg_attr(not(debug_assertions), inline(always))]
    pub fn any(self) -> bool {
        self.0.any()
    }

    /// Returns a bit for each mark, the lowest for the first lane.
    #[cfg_attr(not(debug_assertions), inline(always))]
    pub fn to_bitmask(self) -> u64 {
        self.0.bits()
    }

    #[cfg_attr(not(debug_assertions), inline(always))]
    pub fn select(self, yes: Simd<u8, N>, no: Simd<u8, N>) -> Simd<u8, N> {
        simd(self.0.select(yes.0, no.0))
    }
}

impl<const N: usize> BitOr for Mask<i8, N>
where
    Width<N>: Lanes,
{
    type Output = Self;

    #[cfg_attr(not(debug_assertions), inline(always))]
    fn bitor(self, other: Self) -> Self {
        mask(self.0.or(other.0))
    }
}

impl<const N: usize> BitAnd for Mask<i8, N>
where
    Width<N>: Lanes,
{
    type Output = Self;

    #[cfg_attr(not(debug_assertions), inline(always))]
    fn bitand(self, other: Self) -> Self {
        mask(self.0.and(other.0))
    }
}

impl<const N: usize> Not for Mask<i8, N>
where
    Width<N>: Lanes,
{
    type Output = Self;

    #[cfg_attr(not(debug_assertions), inline(always))]
    fn not(self) -> Self {
        mask(self.0.xor(Vector::splat(0xFF)))
    }
}

/// Lanes of 32 bits, of which the codec only takes the sum.
pub struct Sum(u32);

impl Sum {
    #[cfg_attr(not(debug_assertions), inline(always))]
    pub fn strict_reduce_sum(self) -> u32 {
        self.0
    }
}

/// A type that has the positions of a shuffle. `positions!` makes one, so that they are constants.
pub trait Positions<const M: usize> {
    const POSITIONS: [usize; M];
}

macro_rules! positions {
    ($lanes:expr, $positions:expr) => {{
        struct Here;
        impl Positions<{ $lanes }> for Here {
            const POSITIONS: [usize; $lanes] = $positions;
        }
        Here
    }};
}
pub(crate) use positions;

/// Where 16 lanes of a shuffle's result come from, those from `16 * PART` on. The result has `M`
/// lanes, and each of the two input vectors `N`. The inputs in a row are divided into at most four
/// parts, of `PART_LANES` lanes each.
struct Plan<P, const N: usize, const M: usize, const PART: usize>(PhantomData<P>);

impl<P: Positions<M>, const N: usize, const M: usize, const PART: usize> Plan<P, N, M, PART> {
    const PART_LANES: usize = if N < 16 { N } else { 16 };

    const FIRST: usize = Self::position(0);

    /// The input lane that lane `i` of these comes from. The compiler evaluates this for `PART` 1
    /// even if the result has only 16 lanes, hence the remainder.
    const fn position(i: usize) -> usize {
        let position = P::POSITIONS[(16 * PART + i) % M];
        assert!(position < 2 * N);
        position
    }

    /// Whether the positions are consecutive, in inputs of at least 16 lanes.
    const IS_RUN: bool = {
        let (mut is_run, mut i) = (N >= 16, 1);
        while i < 16 {
            is_run &= Self::position(i) == Self::FIRST + i;
            i += 1;
        }
        is_run
    };

    /// Which parts of the input the lanes come from.
    const USES: [bool; 4] = {
        let (mut uses, mut i) = ([false; 4], 0);
        while i < 16 {
            uses[Self::position(i) / Self::PART_LANES] = true;
            i += 1;
        }
        uses
    };

    /// For each part of the input the indices to look up in it, with 128 for lanes of other parts.
    const INDICES: [[u8; 16]; 4] = {
        let (mut indices, mut i) = ([[128; 16]; 4], 0);
        while i < 16 {
            let position = Self::position(i);
            indices[position / Self::PART_LANES][i] = (position % Self::PART_LANES) as u8;
            i += 1;
        }
        indices
    };
}

impl<P: Positions<M>, const N: usize, const M: usize, const PART: usize> Run
    for Plan<P, N, M, PART>
{
    const BY: usize = Self::FIRST % 16;
}

#[cfg_attr(not(debug_assertions), inline(always))]
fn shuffled<P: Positions<M>, const N: usize, const M: usize>(
    first: Simd<u8, N>,
    second: Simd<u8, N>,
    _: P,
) -> Simd<u8, M>
where
    Width<N>: Lanes,
    Width<M>: Lanes,
{
    const { assert!(N <= 32 && (M == 16 || M == 32)) };
    if const { N == 32 && M == 32 && is_late_run::<P, M>() } {
        let lanes = first.0.run::<Plan<P, N, M, 0>>(second.0);
        return simd(Vector::of_halves(lanes.half(0), lanes.half(1)));
    }
    let low = half_of::<P, N, M, 0>(first, second);
    if const { M == 16 } {
        return simd(Vector::of_halves(low, low));
    }
    simd(Vector::of_halves(low, second_half_of::<P, N, M>(first, second)))
}

/// Whether the positions are consecutive and begin at 17 to 31. Then two instructions are enough
/// for 32 lanes (`run`).
const fn is_late_run<P: Positions<M>, const M: usize>() -> bool {
    let (first, mut i) = (P::POSITIONS[0], 1);
    let mut is_run = 16 < first && first < 32;
    while i < M {
        is_run &= P::POSITIONS[i] == first + i;
        i += 1;
    }
    is_run
}

/// Returns the lanes of the result from 16 on, if it has 32.
#[cfg_attr(not(debug_assertions), inline(always))]
fn second_half_of<P: Positions<M>, const N: usize, const M: usize>(
    first: Simd<u8, N>,
    second: Simd<u8, N>,
) -> Half
where
    Width<N>: Lanes,
{
    if const { M == 32 } { half_of::<P, N, M, 1>(first, second) } else { first.0.half(0) }
}

/// Returns 16 lanes of the result, those from `16 * PART` on.
#[cfg_attr(not(debug_assertions), inline(always))]
fn half_of<P: Positions<M>, const N: usize, const M: usize, const PART: usize>(
    first: Simd<u8, N>,
    second: Simd<u8, N>,
) -> Half
where
    Width<N>: Lanes,
{
    let part = |at: usize| {
        let halves = if N == 32 { 2 } else { 1 };
        if at < halves { first.0.half(at) } else { second.0.half(at - halves) }
    };
    let at = const { Plan::<P, N, M, PART>::FIRST / Plan::<P, N, M, PART>::PART_LANES };
    if const { Plan::<P, N, M, PART>::IS_RUN && Plan::<P, N, M, PART>::BY == 0 } {
        return part(at);
    }
    if const { Plan::<P, N, M, PART>::IS_RUN } {
        return part(at).run::<Plan<P, N, M, PART>>(part(at + 1));
    }
    let mut lanes = Half::splat(0);
    macro_rules! from_part {
        ($($at:literal)*) => {
            $(if const { Plan::<P, N, M, PART>::USES[$at] } {
                let indices = const { &Plan::<P, N, M, PART>::INDICES[$at] };
                lanes = lanes.or(part($at).look_up(Simd::<u8, 16>::from_ref(indices).0));
            })*
        };
    }
    from_part!(0 1 2 3);
    lanes
}

/// `as_chunks` of slices, which came with Rust 1.88.
pub trait InChunks<T> {
    /// Splits into arrays, and a rest that is shorter.
    fn in_chunks<const N: usize>(&self) -> (&[[T; N]], &[T]);
}

impl<T> InChunks<T> for [T] {
    #[cfg_attr(not(debug_assertions), inline(always))]
    fn in_chunks<const N: usize>(&self) -> (&[[T; N]], &[T]) {
        const { assert!(N > 0) };
        let (chunks, rest) = self.split_at(self.len() / N * N);
        // SAFETY: the elements of so many arrays follow one another, as those of a slice do.
        (unsafe { core::slice::from_raw_parts(chunks.as_ptr().cast(), chunks.len() / N) }, rest)
    }
}
