// @generated from proved source. It is not edited.

use crate::support::alloc::AllocError;
use core::error::Error;
use core::fmt;
use crate::host::io;

/// Why an input wasn't read to its end.
#[derive(Clone, Copy, Debug)]
pub enum ReadError {
    /// An allocation failed.
    Memory,
    /// The file can't be opened, or a read failed, for this cause. An interrupted read is none: it
    /// is tried again.
    Io(io::Error),
    /// All reads that were allowed were made, and none found the end.
    TooManyReads,
}

/// Writes the cause, `out of memory`, or `too many reads`.
impl fmt::Display for ReadError {
    fn fmt(&self, f: &mut fmt::Formatter<'_>) -> fmt::Result {
        match self {
            ReadError::Memory => f.write_str("out of memory"),
            ReadError::Io(error) => write!(f, "{error}"),
            ReadError::TooManyReads => f.write_str("too many reads"),
        }
    }
}

impl Error for ReadError {}

/// A failed allocation is [`ReadError::Memory`].
impl From<AllocError> for ReadError {
    fn from(_error: AllocError) -> ReadError {
        ReadError::Memory
    }
}

/// A read that failed is [`ReadError::Io`].
impl From<io::Error> for ReadError {
    fn from(cause: io::Error) -> ReadError {
        ReadError::Io(cause)
    }
}
