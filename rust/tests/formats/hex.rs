//! Bytes in hex.
#![allow(dead_code)]

use std::fmt;

/// Why a text isn't bytes in hex.
#[derive(Clone, Copy, PartialEq, Eq, Debug)]
pub enum FromHexError {
    /// A character that is no hex digit.
    InvalidHexCharacter { c: char, index: usize },
    /// The digits are odd in number.
    OddLength,
    /// The buffer has another length.
    InvalidStringLength,
    /// An allocation failed.
    OutOfMemory,
}

impl fmt::Display for FromHexError {
    fn fmt(&self, f: &mut fmt::Formatter<'_>) -> fmt::Result {
        write!(f, "{self:?}")
    }
}

/// Writes two digits for each byte, if there is exactly room for them.
pub fn encode_to_slice(bytes: &[u8], out: &mut [u8]) -> Result<(), FromHexError> {
    const DIGITS: &[u8; 16] = b"0123456789abcdef";
    if out.len() != 2 * bytes.len() {
        return Err(FromHexError::InvalidStringLength);
    }
    for (pair, byte) in out.chunks_exact_mut(2).zip(bytes) {
        pair[0] = DIGITS[usize::from(byte >> 4)];
        pair[1] = DIGITS[usize::from(byte & 15)];
    }
    Ok(())
}

/// Returns two digits for each byte.
pub fn encode(bytes: &[u8]) -> Result<String, crate::support::alloc::AllocError> {
    Ok(bytes.iter().map(|byte| format!("{byte:02x}")).collect())
}

/// Returns the bytes that digits spell.
pub fn decode(digits: &[u8]) -> Result<Vec<u8>, FromHexError> {
    if digits.len() % 2 != 0 {
        return Err(FromHexError::OddLength);
    }
    let value = |index: usize| {
        let c = char::from(digits[index]);
        c.to_digit(16).ok_or(FromHexError::InvalidHexCharacter { c, index })
    };
    let mut bytes = Vec::new();
    bytes.try_reserve_exact(digits.len() / 2).map_err(|_| FromHexError::OutOfMemory)?;
    for index in (0..digits.len()).step_by(2) {
        bytes.push((value(index)? * 16 + value(index + 1)?) as u8);
    }
    Ok(bytes)
}
