// @generated from proved source. It is not edited.

use crate::formats::uefi_path_text::form::argument::Argument;

/// Why arguments aren't those of a form. The offset is from the start of the arguments.
#[derive(Clone, Copy, Debug)]
pub(crate) struct Fault {
    pub(crate) offset: usize,
    pub(crate) kind: FaultKind,
}

/// What is wrong with arguments.
#[derive(Clone, Copy, PartialEq, Eq, Debug)]
pub(crate) enum FaultKind {
    /// A character that can't follow.
    Argument,
    /// What is before isn't complete.
    Missing,
    /// The node grows too long.
    TooLong,
}

impl Fault {
    /// Returns the fault with its offset from this many bytes before.
    #[inline]
    pub(crate) fn after(self, start: usize) -> Fault {
        Fault {
            offset: start + self.offset,
            kind: self.kind,
        }
    }

    /// Returns the fault of a node that is too long from an offset on, or this one if it is before.
    #[inline]
    pub(crate) fn or_excess(self, excess: usize) -> Fault {
        if excess < self.offset {
            Fault {
                offset: excess,
                kind: FaultKind::TooLong,
            }
        } else {
            self
        }
    }

    /// Returns the other fault, or this one if it is farther.
    #[inline]
    pub(crate) fn or_farther(self, other: Fault) -> Fault {
        if self.offset > other.offset {
            self
        } else {
            other
        }
    }
}

impl Argument {
    /// Returns the fault of a text that isn't one of the argument's from the offset on.
    #[inline]
    pub(crate) fn fault(self, text: &[u8], offset: usize) -> Fault {
        let is_full = match self {
            Argument::Text(most) | Argument::Name(most) => offset == most,
            Argument::Bytes(most) => offset / 2 == most,
            Argument::HardwareAddress => offset / 2 == 32,
            _ => false,
        };
        let kind = if offset == text.len() {
            FaultKind::Missing
        } else if is_full {
            FaultKind::TooLong
        } else {
            FaultKind::Argument
        };
        Fault { offset, kind }
    }
}
