// @generated from proved source. It is not edited.

use crate::support::alloc::AllocError;
use core::error::Error;
use core::fmt;

/// The error of bytes that begin with no list of resources.
///
/// The first offset decides at which neither a whole record nor the end tag begins.
#[derive(Clone, Copy, PartialEq, Eq, Debug)]
pub enum ResourceError {
    /// The bytes end at that offset.
    NoEndTag,
    /// A record begins at that offset, and the bytes end before it does.
    CutRecord,
    /// This byte is at that offset. It is neither the tag of a record nor the end tag.
    UnknownTag(u8),
    /// An allocation failed. The bytes begin with a list.
    Memory,
}

/// Writes what is missing, or the byte that is no tag as a decimal number.
impl fmt::Display for ResourceError {
    fn fmt(&self, f: &mut fmt::Formatter<'_>) -> fmt::Result {
        match self {
            ResourceError::NoEndTag => f.write_str("no end tag"),
            ResourceError::CutRecord => f.write_str("a record is cut off"),
            ResourceError::UnknownTag(tag) => write!(f, "unknown tag {tag}"),
            ResourceError::Memory => f.write_str("out of memory"),
        }
    }
}

impl Error for ResourceError {}

/// An allocation that fails is [`ResourceError::Memory`].
impl From<AllocError> for ResourceError {
    #[inline]
    fn from(_error: AllocError) -> ResourceError {
        ResourceError::Memory
    }
}
