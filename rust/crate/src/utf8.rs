//! The test for UTF-8: that of the crate `simdutf8` if its feature is on, and otherwise `core`'s.

/// Returns the bytes as a text if they are UTF-8.
#[cfg(feature = "simdutf8")]
#[inline]
pub(crate) fn from_utf8(bytes: &[u8]) -> Option<&str> {
    simdutf8::basic::from_utf8(bytes).ok()
}

/// Returns the bytes as a text if they are UTF-8.
#[cfg(not(feature = "simdutf8"))]
#[inline]
pub(crate) fn from_utf8(bytes: &[u8]) -> Option<&str> {
    core::str::from_utf8(bytes).ok()
}

/// Returns whether the bytes are UTF-8. The text that `from_utf8` returns is not used: a copy of it
/// would wait for the stores of its two fields.
#[inline]
pub(crate) fn is_utf8(bytes: &[u8]) -> bool {
    from_utf8(bytes).is_some()
}

/// Splits the bytes after their longest prefix that is UTF-8. It uses `core`, since the errors of
/// `simdutf8::basic` do not say how long that prefix is.
pub(crate) fn split_valid(bytes: &[u8]) -> (&str, &[u8]) {
    match core::str::from_utf8(bytes) {
        Ok(text) => (text, &[]),
        Err(error) => {
            let (valid, rest) = bytes.split_at(error.valid_up_to());
            (core::str::from_utf8(valid).unwrap_or_default(), rest)
        }
    }
}
