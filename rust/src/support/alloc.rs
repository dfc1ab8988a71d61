//! The error of an allocation.

use core::fmt;

/// The error of an allocation that fails.
#[derive(Clone, Copy, PartialEq, Eq, Debug)]
pub struct AllocError;

/// Writes `memory allocation failed`.
impl fmt::Display for AllocError {
    fn fmt(&self, f: &mut fmt::Formatter<'_>) -> fmt::Result {
        f.write_str("memory allocation failed")
    }
}

impl core::error::Error for AllocError {}

#[cfg(feature = "alloc")]
impl From<alloc::collections::TryReserveError> for AllocError {
    fn from(_error: alloc::collections::TryReserveError) -> AllocError {
        AllocError
    }
}
