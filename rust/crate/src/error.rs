use core::{error, fmt};

/// The bytes are not the encoding of a text.
///
/// It prints as `invalid input`, and with `{:?}` as `DecodingError`. It holds nothing, so all its
/// values are equal.
#[derive(Clone, Copy, PartialEq, Eq)]
pub struct DecodingError(pub(crate) ());

impl fmt::Debug for DecodingError {
    fn fmt(&self, f: &mut fmt::Formatter<'_>) -> fmt::Result {
        f.write_str("DecodingError")
    }
}

impl fmt::Display for DecodingError {
    fn fmt(&self, f: &mut fmt::Formatter<'_>) -> fmt::Result {
        f.write_str("invalid input")
    }
}

impl error::Error for DecodingError {}

/// Why a call that writes to a slice writes nothing. The whole slice is then as it was.
#[derive(Clone, Copy, Debug, PartialEq, Eq)]
#[non_exhaustive]
pub enum SliceError {
    /// The bytes are not the encoding of a text.
    Invalid,
    /// The slice is shorter than the result.
    TooShort {
        /// The length of the result in bytes.
        needed: usize,
    },
    /// The length of the result exceeds `usize`, or in [`java`](crate::java) what two bytes count.
    TooLong,
}

impl fmt::Display for SliceError {
    fn fmt(&self, f: &mut fmt::Formatter<'_>) -> fmt::Result {
        f.write_str(match self {
            SliceError::Invalid => "invalid input",
            SliceError::TooShort { .. } => "buffer too short",
            SliceError::TooLong => "text is too long",
        })
    }
}

impl error::Error for SliceError {}
