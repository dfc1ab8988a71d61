// @generated from proved source. It is not edited.

//! The error of decoding and of writing into a slice.

use crate::support::alloc::AllocError;
use core::error;
use core::fmt;

/// The error type for decoding a hex string into a `Vec<u8>` or a `[u8; N]`.
#[derive(Debug, Clone, Copy, PartialEq, Eq)]
pub enum FromHexError {
    /// An invalid character was found. Valid ones are: `0...9`, `a...f` or `A...F`.
    InvalidHexCharacter { c: char, index: usize },
    /// A hex string's length needs to be even, as two digits correspond to one byte.
    OddLength,
    /// If the hex string is decoded into a fixed sized container, such as an array, the hex
    /// string's length has to be twice the container's length.
    InvalidStringLength,
    /// There was no memory for the decoded bytes.
    OutOfMemory,
}

impl fmt::Display for FromHexError {
    fn fmt(&self, f: &mut fmt::Formatter<'_>) -> fmt::Result {
        match *self {
            FromHexError::InvalidHexCharacter { c, index } => {
                write!(f, "Invalid character {c:?} at position {index}")
            }
            FromHexError::OddLength => write!(f, "Odd number of digits"),
            FromHexError::InvalidStringLength => write!(f, "Invalid string length"),
            FromHexError::OutOfMemory => write!(f, "Out of memory"),
        }
    }
}

impl error::Error for FromHexError {}

impl From<AllocError> for FromHexError {
    fn from(_e: AllocError) -> FromHexError {
        FromHexError::OutOfMemory
    }
}
