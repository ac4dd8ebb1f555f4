//! Bytes as hex.

use super::alloc::{AllocError, Global};
use super::{String, Vec};

/// Why a text isn't the hex of some bytes.
#[derive(Clone, Copy, Debug, PartialEq, Eq)]
pub enum FromHexError {
    /// A character that is no digit, and where it stands.
    InvalidHexCharacter {
        c: char,
        index: usize,
    },
    OddLength,
    /// The bytes are not as many as the slice has.
    InvalidStringLength,
    OutOfMemory,
}

impl std::fmt::Display for FromHexError {
    fn fmt(&self, f: &mut std::fmt::Formatter<'_>) -> std::fmt::Result {
        match self {
            Self::InvalidHexCharacter { c, index } => {
                write!(f, "no hex digit: {c:?} at {index}")
            }
            Self::OddLength => f.write_str("an odd number of hex digits"),
            Self::InvalidStringLength => f.write_str("another number of hex digits"),
            Self::OutOfMemory => f.write_str("out of memory"),
        }
    }
}

impl std::error::Error for FromHexError {}

/// Two lower-case digits for each byte.
pub fn encode<T: AsRef<[u8]> + ?Sized>(alloc: Global, bytes: &T) -> Result<String, AllocError> {
    let bytes = bytes.as_ref();
    let mut text = String::with_capacity(alloc, bytes.len().saturating_mul(2))?;
    for byte in bytes {
        write!(text, "{byte:02x}")?;
    }
    Ok(text)
}

/// The bytes that a text spells, in digits of either case.
pub fn decode<T: AsRef<[u8]> + ?Sized>(alloc: Global, text: &T) -> Result<Vec<u8>, FromHexError> {
    let text = text.as_ref();
    if text.len() % 2 != 0 {
        return Err(FromHexError::OddLength);
    }
    let Ok(mut bytes) = Vec::from_elem(alloc, 0, text.len() / 2) else {
        return Err(FromHexError::OutOfMemory);
    };
    decode_to_slice(text, &mut bytes)?;
    Ok(bytes)
}

/// Writes the bytes that a text spells to a slice of their length.
pub fn decode_to_slice<T: AsRef<[u8]> + ?Sized>(
    text: &T,
    out: &mut [u8],
) -> Result<(), FromHexError> {
    let text = text.as_ref();
    if text.len() % 2 != 0 {
        return Err(FromHexError::OddLength);
    }
    if text.len() / 2 != out.len() {
        return Err(FromHexError::InvalidStringLength);
    }
    for (place, (pair, byte)) in text.chunks_exact(2).zip(out).enumerate() {
        *byte = digit(pair[0], 2 * place)? << 4 | digit(pair[1], 2 * place + 1)?;
    }
    Ok(())
}

fn digit(byte: u8, index: usize) -> Result<u8, FromHexError> {
    let c = char::from(byte);
    match c.to_digit(16) {
        Some(digit) => Ok(digit as u8),
        None => Err(FromHexError::InvalidHexCharacter { c, index }),
    }
}
