//! The panics, each one function for all processor levels. All but `capacity_overflow` are for
//! tests of a bound or a capacity, which the proved code never fails.
#![allow(dead_code)] // The level `plain` uses only the first.

/// The length of a text does not fit `usize`. If an allocation fails, the process ends before this.
#[cold]
#[inline(never)]
pub(crate) fn capacity_overflow() -> ! {
    panic!("capacity overflow")
}

#[cold]
#[inline(never)]
pub(crate) fn no_capacity() -> ! {
    panic!("a vector lacks capacity")
}

#[cold]
#[inline(never)]
pub(crate) fn range_out_of_bounds() -> ! {
    panic!("a range exceeds its slice")
}

#[cold]
#[inline(never)]
pub(crate) fn vector_out_of_bounds() -> ! {
    panic!("a vector exceeds its slice")
}
