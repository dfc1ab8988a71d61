// @generated from proved source. It is not edited.

//! What follows the last event of a log.

use uefi_formats::pcr::ReadLog;

/// How many bytes follow the last event of a log, and where they begin. They are padding, or they are
/// left over.
#[derive(Clone, Copy, PartialEq, Eq, Debug)]
pub struct Trailing {
    /// The offset at which the last event ends.
    pub offset: usize,
    /// How many bytes of padding follow it.
    pub padding: usize,
    /// How many other bytes do.
    pub left_over: usize,
}

impl Trailing {
    /// Returns what follows the last event of a log.
    pub fn of(read: &ReadLog<'_>) -> Trailing {
        Trailing {
            offset: read.end(),
            padding: read.padding().len(),
            left_over: read.left_over().len(),
        }
    }

    /// Returns whether the log is empty: it ends where it begins, and no byte follows.
    pub fn is_of_empty_log(&self) -> bool {
        self.offset == 0 && self.padding == 0 && self.left_over == 0
    }
}
