//! What the codec uses of Rattle's kit: the test for UTF-8. If a file of the codec uses the kit's
//! crate `simdutf8`, `erase.py` replaces that file's public functions by the functions here with
//! the same names.

/// Returns whether the bytes are UTF-8.
#[inline(never)]
pub fn is_utf8_by_parts(bytes: &[u8]) -> bool {
    crate::utf8::is_utf8(bytes)
}
