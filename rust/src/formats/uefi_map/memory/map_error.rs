// @generated from proved source. It is not edited.

use core::error::Error;
use core::fmt;

/// The error of bytes that are no memory map.
#[non_exhaustive]
#[derive(Clone, Copy, Debug)]
pub enum MemoryMapError {
    /// The address of the bytes isn't a multiple of 8. No call returns it, since none sees an
    /// address.
    Misaligned,
    /// The sizes make no map of the bytes ([`MemoryMapMeta::is_map_within`](crate::formats::uefi_map::MemoryMapMeta)).
    InvalidSize,
}

/// The name of the error.
impl fmt::Display for MemoryMapError {
    fn fmt(&self, f: &mut fmt::Formatter<'_>) -> fmt::Result {
        f.write_str(match self {
            MemoryMapError::Misaligned => "Misaligned",
            MemoryMapError::InvalidSize => "InvalidSize",
        })
    }
}

impl Error for MemoryMapError {}
