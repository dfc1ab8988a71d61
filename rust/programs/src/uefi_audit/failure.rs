// @generated from proved source. It is not edited.

use crate::clap::error::ErrorKind;
use crate::support::alloc::AllocError;
use core::fmt;
use crate::host::io;

/// Why the program stops before its end.
#[derive(Clone, Copy, Debug)]
pub(crate) enum Failure {
    /// The arguments ask for nothing that the program does, and it has said so.
    Arguments,
    /// They ask for help or the version, which was printed.
    Shown,
    /// A write failed or accepted no bytes, for this cause.
    Output(io::Error),
    /// An allocation failed.
    Memory,
}

impl From<AllocError> for Failure {
    fn from(_error: AllocError) -> Failure {
        Failure::Memory
    }
}

impl Failure {
    /// Returns the failure that an error of `clap` is, once its text is printed.
    pub(crate) fn of(error: &crate::clap::Error) -> Failure {
        match error.kind() {
            ErrorKind::OutOfMemory => Failure::Memory,
            ErrorKind::DisplayHelp | ErrorKind::DisplayVersion => Failure::Shown,
            _ => Failure::Arguments,
        }
    }

    /// Returns whether all was said where it came.
    pub(crate) fn is_told(self) -> bool {
        matches!(self, Failure::Arguments | Failure::Shown)
    }

    /// Returns the exit status.
    fn code(self) -> u8 {
        match self {
            Failure::Shown => 0,
            Failure::Arguments => 2,
            Failure::Output(_) | Failure::Memory => 3,
        }
    }
}

/// Writes what failed and, for output, the cause; nothing where all was said before.
impl fmt::Display for Failure {
    fn fmt(&self, f: &mut fmt::Formatter<'_>) -> fmt::Result {
        match self {
            Failure::Arguments | Failure::Shown => Ok(()),
            Failure::Output(cause) => write!(f, "standard output: {cause}"),
            Failure::Memory => f.write_str("memory"),
        }
    }
}

/// How the commands that ran have ended: the worst of what they met.
#[derive(Clone, Copy, PartialEq, Eq, Debug)]
pub(crate) enum Status {
    /// It is as asked.
    Well,
    /// PCRs or events differ, or an event doesn't match its data.
    Differs,
    /// A log can't be judged: it has trailing bytes, nothing was measured, or a PCR that was asked
    /// for is undetermined.
    Unjudged,
    /// A file wasn't read.
    Unread,
}

impl Status {
    /// Returns the worse one of two.
    pub(crate) fn and(self, other: Status) -> Status {
        match (self, other) {
            (Status::Unread, _) | (_, Status::Unread) => Status::Unread,
            (Status::Unjudged, _) | (_, Status::Unjudged) => Status::Unjudged,
            (Status::Differs, _) | (_, Status::Differs) => Status::Differs,
            (Status::Well, Status::Well) => Status::Well,
        }
    }

    /// Returns the exit status.
    fn code(self) -> u8 {
        match self {
            Status::Well => 0,
            Status::Differs => 1,
            Status::Unread => 3,
            Status::Unjudged => 4,
        }
    }
}

/// Returns the exit status of a run that ended so.
pub(crate) fn exit_code(end: Result<Status, Failure>) -> u8 {
    match end {
        Ok(status) => status.code(),
        Err(failure) => failure.code(),
    }
}
