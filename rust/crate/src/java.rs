//! Java's length-prefixed strings, as `DataOutput.writeUTF` writes and `DataInput.readUTF` reads
//! them: two bytes with the length of the string's MUTF-8, the high byte first, and then the
//! MUTF-8.
//!
//! ```
//! use simd_cesu8::java;
//!
//! let mut buf = Vec::new();
//! java::write_utf("a\0", &mut buf)?;
//! java::write_utf("\u{1F496}", &mut buf)?;
//!
//! let (first, rest) = java::read_utf(&buf)?;
//! let (second, rest) = java::read_utf(rest)?;
//! assert_eq!((&*first, &*second, rest), ("a\0", "\u{1F496}", &[][..]));
//! # Ok::<(), Box<dyn std::error::Error>>(())
//! ```

use alloc::borrow::Cow;
use alloc::vec::Vec;
use core::{error, fmt};

use crate::mutf8;

/// Why [`read_utf`] returns no string.
#[derive(Clone, Copy, Debug, PartialEq, Eq)]
#[non_exhaustive]
pub enum ReadError {
    /// There are fewer than two bytes, or fewer after them than they count.
    Truncated,
    /// The counted bytes are not MUTF-8.
    Invalid,
}

impl fmt::Display for ReadError {
    fn fmt(&self, f: &mut fmt::Formatter<'_>) -> fmt::Result {
        f.write_str(match self {
            ReadError::Truncated => "input is truncated",
            ReadError::Invalid => "invalid input",
        })
    }
}

impl error::Error for ReadError {}

/// The MUTF-8 of a text has more than 65,535 bytes, which two bytes can't count.
#[derive(Clone, Copy, Debug, PartialEq, Eq)]
pub struct TooLong {
    /// How many bytes it has.
    pub encoded_len: usize,
}

impl fmt::Display for TooLong {
    fn fmt(&self, f: &mut fmt::Formatter<'_>) -> fmt::Result {
        f.write_str("text is too long")
    }
}

impl error::Error for TooLong {}

/// Appends a text as `DataOutput.writeUTF` writes it.
///
/// It allocates once if the buffer's capacity is too small.
///
/// # Errors
///
/// [`TooLong`] if the text's MUTF-8 has more than 65,535 bytes. The buffer is then as before.
///
/// # Panics
///
/// If the buffer would have more than `isize::MAX` bytes.
///
/// ```
/// let mut buf = Vec::new();
/// simd_cesu8::java::write_utf("a\0", &mut buf)?;
/// assert_eq!(buf, b"\0\x03a\xC0\x80");
/// # Ok::<(), simd_cesu8::java::TooLong>(())
/// ```
pub fn write_utf(text: &str, buf: &mut Vec<u8>) -> Result<(), TooLong> {
    let encoded_len = mutf8::encoded_len(text);
    let Ok(count) = u16::try_from(encoded_len) else {
        return Err(TooLong { encoded_len });
    };
    buf.reserve(2 + encoded_len);
    buf.extend_from_slice(&count.to_be_bytes());
    mutf8::encode_into(text, buf);
    Ok(())
}

/// Reads the string that begins the bytes, as `DataInput.readUTF` does but strictly, and returns it
/// with the bytes after it. It borrows the counted bytes if and only if they are the text's UTF-8.
///
/// # Errors
///
/// [`ReadError::Truncated`] if bytes are missing, and [`ReadError::Invalid`] if the counted bytes
/// are not MUTF-8.
///
/// ```
/// let (text, rest) = simd_cesu8::java::read_utf(b"\0\x01AB")?;
/// assert_eq!((&*text, rest), ("A", &b"B"[..]));
/// # Ok::<(), simd_cesu8::java::ReadError>(())
/// ```
pub fn read_utf(bytes: &[u8]) -> Result<(Cow<'_, str>, &[u8]), ReadError> {
    let (counted, rest) = split_counted(bytes)?;
    let text = mutf8::decode_strict(counted).map_err(|_| ReadError::Invalid)?;
    Ok((text, rest))
}

/// Reads the string that begins the bytes, which may be damaged, with U+FFFD for each byte in no
/// encoded character. It borrows as [`read_utf`] does.
///
/// # Errors
///
/// [`ReadError::Truncated`] if bytes are missing. It never returns [`ReadError::Invalid`].
///
/// ```
/// let (text, rest) = simd_cesu8::java::read_utf_lossy(b"\0\x02\xC2AB")?;
/// assert_eq!((&*text, rest), ("\u{FFFD}A", &b"B"[..]));
/// # Ok::<(), simd_cesu8::java::ReadError>(())
/// ```
pub fn read_utf_lossy(bytes: &[u8]) -> Result<(Cow<'_, str>, &[u8]), ReadError> {
    let (counted, rest) = split_counted(bytes)?;
    Ok((mutf8::decode_lossy_strict(counted), rest))
}

/// Returns the bytes that the first two count, and those after them.
fn split_counted(bytes: &[u8]) -> Result<(&[u8], &[u8]), ReadError> {
    let [high, low, after @ ..] = bytes else {
        return Err(ReadError::Truncated);
    };
    let count = u16::from_be_bytes([*high, *low]);
    after.split_at_checked(count.into()).ok_or(ReadError::Truncated)
}
