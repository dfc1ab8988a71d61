// @generated from proved source. It is not edited.

//! Whether a log can be judged.

use crate::uefi_audits::trailing::Trailing;
use uefi_formats::pcr::ReadLog;
use uefi_formats::pcr::entries::has_measured;

/// Whether a log can be judged.
#[derive(Clone, Copy, PartialEq, Eq, Debug)]
pub enum Judgement {
    /// It can be.
    Accepted,
    /// It has no event that extends a PCR.
    NothingMeasured,
    /// It has trailing bytes that are no padding, and these aren't allowed.
    LeftOver,
}

impl Judgement {
    /// Returns whether a log can be judged, by whether bytes other than padding may follow its last
    /// event.
    pub fn of(read: &ReadLog<'_>, allow_left_over: bool) -> Judgement {
        if !allow_left_over && Trailing::of(read).left_over > 0 {
            return Judgement::LeftOver;
        }
        if has_measured(read.entries()) {
            return Judgement::Accepted;
        }
        Judgement::NothingMeasured
    }

    /// Returns whether the log's events are read: they are all that it has.
    pub fn is_read(self) -> bool {
        self != Judgement::LeftOver
    }
}
