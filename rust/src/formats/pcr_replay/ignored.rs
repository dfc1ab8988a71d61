// @generated from proved source. It is not edited.

use crate::formats::pcr_replay::pcrs::PCR_COUNT;
use crate::formats::pcr_replay::start::locality_in;
use crate::formats::uefi_tcg::{EventType, LogEvent};

/// Why an event has no effect on any PCR, and should have.
#[non_exhaustive]
#[derive(Clone, Copy, PartialEq, Eq, Debug)]
pub enum Ignored {
    /// It is of a PCR above 23, and its type isn't [`EventType::NO_ACTION`].
    NoPcr,
    /// It states the locality at which the TPM was started, and is of another PCR than 0.
    OtherPcr,
}

/// Returns why an event has no effect on any PCR, if it should have; `None` for all others.
#[must_use]
#[inline]
pub fn why_ignored(event: &LogEvent<'_>) -> Option<Ignored> {
    let pcr = event.pcr_index().0;
    if event.event_type() == EventType::NO_ACTION {
        if pcr != 0 && locality_in(event.event_data()).is_some() {
            return Some(Ignored::OtherPcr);
        }
        return None;
    }
    if (pcr as usize) < PCR_COUNT {
        return None;
    }
    Some(Ignored::NoPcr)
}
