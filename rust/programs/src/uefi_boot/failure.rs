// @generated from proved source. It is not edited.

use crate::support::fallible::*;

use crate::file_input::ReadError;
use crate::shown::ShownName;
use crate::support::alloc::AllocError;
use core::fmt;
use crate::host::io;

/// Why the program didn't print what it was asked for.
#[derive(Debug)]
pub(crate) enum Failure {
    /// The words ask for nothing.
    OtherWords,
    /// The folder of this name couldn't be read, or one of the names in it.
    Folder(String, io::Error),
    /// The file of this name couldn't be read.
    File(String, ReadError),
    /// A write failed or accepted no bytes.
    Output(io::Error),
    /// An allocation failed.
    Memory,
}

impl From<AllocError> for Failure {
    fn from(_error: AllocError) -> Failure {
        Failure::Memory
    }
}

impl Failure {
    /// Returns that a file wasn't read.
    pub(crate) fn of_file(name: &str, error: ReadError) -> Failure {
        match String::fallible_from_str(name) {
            Ok(name) => Failure::File(name, error),
            Err(_) => Failure::Memory,
        }
    }

    /// Returns that a folder wasn't read.
    pub(crate) fn of_folder(name: &str, error: io::Error) -> Failure {
        match String::fallible_from_str(name) {
            Ok(name) => Failure::Folder(name, error),
            Err(_) => Failure::Memory,
        }
    }

    /// Returns the exit status.
    pub(crate) fn status(&self) -> u8 {
        match self {
            Failure::OtherWords => 2,
            Failure::Folder(..) | Failure::File(..) | Failure::Output(_) | Failure::Memory => 3,
        }
    }
}

/// Writes what failed, and for which cause.
impl fmt::Display for Failure {
    fn fmt(&self, f: &mut fmt::Formatter<'_>) -> fmt::Result {
        match self {
            Failure::OtherWords => {
                f.write_str("usage: uefi_boot list|option|text|path [--json] DIR|FILE|TEXT")
            }
            Failure::Folder(name, cause) => {
                let name = ShownName(name.as_str());
                write!(f, "uefi_boot: {name}: {cause}")
            }
            Failure::File(name, cause) => {
                let name = ShownName(name.as_str());
                write!(f, "uefi_boot: {name}: {cause}")
            }
            Failure::Output(cause) => write!(f, "uefi_boot: standard output: {cause}"),
            Failure::Memory => f.write_str("uefi_boot: memory"),
        }
    }
}
