//! What the codec uses of Rattle's `std::alloc`. There an allocator is an argument, and an
//! allocation may fail. Here it is the global one, and an allocation that fails ends the process,
//! as with every collection of Rust. With debug assertions `inline(always)` is left out, since it
//! would make a debug build take minutes.

use alloc::vec::Vec;
use core::slice::SliceIndex;

use crate::panics::{no_capacity, range_out_of_bounds};

/// The allocator.
#[derive(Clone, Copy, Debug)]
pub struct Global;

/// An allocation failed, or a length does not fit `usize`. No call of this module returns it.
#[derive(Clone, Copy, Debug, PartialEq, Eq)]
pub struct AllocError;

/// A value for which an allocation failed.
#[derive(Clone, Copy, Debug)]
pub struct AllocFailed<T>(pub T);

/// Returns an empty vector with this capacity, after one allocation. The code is long, so it is not
/// inlined.
#[inline(never)]
pub fn with_capacity(_: Global, capacity: usize) -> Result<Vec<u8>, AllocError> {
    Ok(Vec::with_capacity(capacity))
}

/// Reserves capacity for `more` bytes. The capacity grows by a factor, as with `Vec::push`.
#[cfg_attr(not(debug_assertions), inline(always))]
pub fn reserve(out: &mut Vec<u8>, more: usize) -> Result<(), AllocError> {
    out.reserve(more);
    Ok(())
}

/// Appends to a vector that has the capacity. The methods of `Vec` would have code to grow it at
/// each call.
pub trait Append {
    fn append_bytes(&mut self, bytes: &[u8]);

    /// Appends a byte `count` times.
    fn append_times(&mut self, byte: u8, count: usize);
}

impl Append for Vec<u8> {
    #[cfg_attr(not(debug_assertions), inline(always))]
    fn append_bytes(&mut self, bytes: &[u8]) {
        let len = self.len();
        if bytes.len() > self.capacity() - len {
            no_capacity();
        }
        // SAFETY: there is capacity for so many bytes, by the test, and `bytes` are none of this
        // vector's, which is borrowed mutably.
        unsafe {
            bytes.as_ptr().copy_to_nonoverlapping(self.as_mut_ptr().add(len), bytes.len());
            self.set_len(len + bytes.len());
        }
    }

    #[cfg_attr(not(debug_assertions), inline(always))]
    fn append_times(&mut self, byte: u8, count: usize) {
        let len = self.len();
        if count > self.capacity() - len {
            no_capacity();
        }
        // SAFETY: there is capacity for so many bytes, by the test.
        unsafe {
            self.as_mut_ptr().add(len).write_bytes(byte, count);
            self.set_len(len + count);
        }
    }
}

/// The part of a slice in a range, which a proof has shown to be in bounds. The index operator
/// would add its source location, and a panic with the range in its message, at each use.
pub trait Part {
    fn part<R: SliceIndex<[u8], Output = [u8]>>(&self, range: R) -> &[u8];
    fn part_mut<R: SliceIndex<[u8], Output = [u8]>>(&mut self, range: R) -> &mut [u8];
}

impl Part for [u8] {
    #[cfg_attr(not(debug_assertions), inline(always))]
    fn part<R: SliceIndex<[u8], Output = [u8]>>(&self, range: R) -> &[u8] {
        match self.get(range) {
            Some(part) => part,
            None => range_out_of_bounds(),
        }
    }

    #[cfg_attr(not(debug_assertions), inline(always))]
    fn part_mut<R: SliceIndex<[u8], Output = [u8]>>(&mut self, range: R) -> &mut [u8] {
        match self.get_mut(range) {
            Some(part) => part,
            None => range_out_of_bounds(),
        }
    }
}
