// @generated from proved source. It is not edited.

use crate::formats::uefi_path::error::ByteConversionError;
use core::error::Error;
use core::fmt;

/// The error for bytes that are no load option.
#[non_exhaustive]
#[derive(Clone, Copy, PartialEq, Eq, Debug)]
pub enum LoadOptionError {
    /// There are fewer than six bytes: the attributes or the length of the file path list are cut.
    TooShort,
    /// No unit from the sixth byte on is zero, so the description doesn't end.
    NotNulTerminated,
    /// The stated length of the file path list is beyond the end of the bytes.
    FilePathListTooLong,
    /// The file path list doesn't start with a device path.
    FilePath(ByteConversionError),
}

/// The error of the first path of the file path list.
impl From<ByteConversionError> for LoadOptionError {
    #[inline]
    fn from(fault: ByteConversionError) -> LoadOptionError {
        LoadOptionError::FilePath(fault)
    }
}

/// Writes what is wrong with the bytes, such as `a description without a NUL`.
impl fmt::Display for LoadOptionError {
    fn fmt(&self, f: &mut fmt::Formatter<'_>) -> fmt::Result {
        match self {
            LoadOptionError::TooShort => f.write_str("fewer than 6 bytes"),
            LoadOptionError::NotNulTerminated => f.write_str("a description without a NUL"),
            LoadOptionError::FilePathListTooLong => {
                f.write_str("a file path list beyond the end of the bytes")
            }
            LoadOptionError::FilePath(fault) => write!(f, "the first file path: {fault}"),
        }
    }
}

impl Error for LoadOptionError {}
