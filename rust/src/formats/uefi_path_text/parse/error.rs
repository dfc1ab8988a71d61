// @generated from proved source. It is not edited.

use crate::support::alloc::AllocError;
use core::error::Error;
use core::fmt;

/// Why a text isn't that of a path, or its path isn't written. Offsets are in bytes, from the start
/// of the text: no text of a path continues what is before the offset by the character there.
#[non_exhaustive]
#[derive(Clone, Copy, PartialEq, Eq, Debug)]
pub enum FromTextError {
    /// The arguments of a node begin at this offset, and no type of nodes has the name before it.
    UnknownNode(usize),
    /// The character at this offset can't follow what is before it.
    Argument(usize),
    /// What is before this offset isn't complete.
    Missing(usize),
    /// From this offset on a node is longer than its type or the header of a node allows.
    TooLong(usize),
    /// The buffer is too short: it has to have this many bytes.
    Buffer(usize),
    /// An allocation failed.
    Memory,
}

/// Writes what is wrong, such as `an unexpected character at byte 5`.
impl fmt::Display for FromTextError {
    fn fmt(&self, f: &mut fmt::Formatter<'_>) -> fmt::Result {
        match self {
            FromTextError::UnknownNode(offset) => {
                write!(f, "a node of an unknown name at byte {offset}")
            }
            FromTextError::Argument(offset) => write!(
                f,
                "an unexpected character at byte {offset}"
            ),
            FromTextError::Missing(offset) => write!(f, "something is missing at byte {offset}"),
            FromTextError::TooLong(offset) => write!(f, "a node that is too long at byte {offset}"),
            FromTextError::Buffer(needed) => {
                write!(f, "the buffer is shorter than {needed} bytes")
            }
            FromTextError::Memory => f.write_str("out of memory"),
        }
    }
}

impl Error for FromTextError {}

/// A failed allocation is [`FromTextError::Memory`].
impl From<AllocError> for FromTextError {
    #[inline]
    fn from(_error: AllocError) -> FromTextError {
        FromTextError::Memory
    }
}
