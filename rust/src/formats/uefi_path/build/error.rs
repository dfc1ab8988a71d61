// @generated from proved source. It is not edited.

use crate::support::alloc::AllocError;
use core::error::Error;
use core::fmt;

/// Why a node isn't written, or a path isn't built.
#[non_exhaustive]
#[derive(Clone, Copy, PartialEq, Eq, Debug)]
pub enum BuildError {
    /// No node of its type has the value.
    Form,
    /// The node is longer than 65535 bytes, the most that its header can state.
    NodeTooBig,
    /// The buffer is too short: it has to have this many bytes.
    BufferTooSmall(usize),
    /// The node is an end-entire node, which only the end of a path has.
    EndEntire,
    /// An allocation failed.
    Memory,
}

/// Writes what is wrong, such as `the buffer is shorter than 44 bytes`.
impl fmt::Display for BuildError {
    fn fmt(&self, f: &mut fmt::Formatter<'_>) -> fmt::Result {
        match self {
            BuildError::Form => f.write_str("no node of its type has the value"),
            BuildError::NodeTooBig => f.write_str("a node of more than 65535 bytes"),
            BuildError::BufferTooSmall(needed) => {
                write!(f, "the buffer is shorter than {needed} bytes")
            }
            BuildError::EndEntire => f.write_str("an end-entire node before the end of the path"),
            BuildError::Memory => f.write_str("out of memory"),
        }
    }
}

impl Error for BuildError {}

/// A failed allocation is [`BuildError::Memory`].
impl From<AllocError> for BuildError {
    #[inline]
    fn from(_error: AllocError) -> BuildError {
        BuildError::Memory
    }
}
