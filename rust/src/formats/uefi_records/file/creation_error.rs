// @generated from proved source. It is not edited.

use core::error::Error;
use core::fmt;

/// The error of a record that was not written.
#[non_exhaustive]
#[derive(Clone, Copy, PartialEq, Eq, Debug)]
pub enum FileInfoCreationError {
    /// The storage is shorter than the record, whose size this is, in bytes.
    InsufficientStorage(usize),
}

/// The text `provided buffer was too small. need at least N bytes`, without a newline.
impl fmt::Display for FileInfoCreationError {
    fn fmt(&self, f: &mut fmt::Formatter<'_>) -> fmt::Result {
        let FileInfoCreationError::InsufficientStorage(size) = self;
        write!(
            f,
            "provided buffer was too small. need at least {size} bytes"
        )
    }
}

impl Error for FileInfoCreationError {}
