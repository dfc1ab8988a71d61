// @generated from proved source. It is not edited.

use crate::support::fallible::*;

use crate::uefi_audits::verify::named::NamedPcr;
use uefi_formats::pcr::PCR_COUNT;
use crate::support::alloc::AllocError;
use uefi_formats::proto::tcg::{EventType, LogEntry, LogEvent};

/// Returns the PCRs that an event of a log extends and of which no bank is compared, in order.
///
/// # Errors
///
/// [`AllocError`] if an allocation fails.
pub fn uncompared_pcrs(
    entries: &[LogEntry<'_>],
    compared: &[NamedPcr],
) -> Result<Vec<u32>, AllocError> {
    (0..PCR_COUNT as u32)
        .filter(|pcr| is_extended(entries, *pcr) && !is_compared(compared, *pcr))
        .fallible_collect()
}

/// Returns whether an event of a log extends a PCR.
fn is_extended(entries: &[LogEntry<'_>], pcr: u32) -> bool {
    entries.iter().any(|entry| extends(&entry.event, pcr))
}

/// Returns whether an event extends a PCR.
pub(crate) fn extends(event: &LogEvent<'_>, pcr: u32) -> bool {
    event.event_type() != EventType::NO_ACTION && event.pcr_index().0 == pcr
}

/// Returns whether a bank of a PCR is compared.
fn is_compared(compared: &[NamedPcr], pcr: u32) -> bool {
    compared.iter().any(|it| it.pcr == pcr)
}
