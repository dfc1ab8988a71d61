// @generated from proved source. It is not edited.

use core::error::Error;
use core::fmt;

/// The error for bytes that don't start with the header, the node or the path that was to be read.
#[derive(Clone, Copy, PartialEq, Eq, Debug)]
pub enum ByteConversionError {
    /// There are too few bytes, or a length that they state is below the length of a header or
    /// beyond their end.
    InvalidLength,
}

/// Writes `invalid length`.
impl fmt::Display for ByteConversionError {
    fn fmt(&self, f: &mut fmt::Formatter<'_>) -> fmt::Result {
        match self {
            ByteConversionError::InvalidLength => f.write_str("invalid length"),
        }
    }
}

impl Error for ByteConversionError {}
