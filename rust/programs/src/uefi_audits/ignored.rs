// @generated from proved source. It is not edited.

//! The events of a log that have no effect on any PCR, and should have.

use crate::support::fallible::*;

use uefi_formats::pcr::{Ignored, why_ignored};
use crate::support::alloc::AllocError;
use uefi_formats::proto::tcg::LogEntry;

/// An event that has no effect on any PCR, and should have.
#[derive(Clone, Copy, PartialEq, Eq, Debug)]
pub struct IgnoredEvent {
    /// Its index in the log: 0 for the first one.
    pub index: usize,
    /// The offset at which it starts.
    pub offset: usize,
    /// Its PCR.
    pub pcr: u32,
    /// Why it has no effect.
    pub why: Ignored,
}

impl IgnoredEvent {
    /// Returns whether the event should have extended a PCR that no TPM has.
    pub fn is_of_no_pcr(&self) -> bool {
        self.why == Ignored::NoPcr
    }
}

/// Returns the events that have no effect on any PCR and should have, in order.
///
/// # Errors
///
/// [`AllocError`] if an allocation fails.
pub fn ignored_events(
    entries: &[LogEntry<'_>],
) -> Result<Vec<IgnoredEvent>, AllocError> {
    let mut found = Vec::new();
    for index in 0..entries.len() {
        push_if_ignored(&mut found, index, &entries[index])?;
    }
    Ok(found)
}

/// Appends an event, if it has no effect and should have.
fn push_if_ignored(
    found: &mut Vec<IgnoredEvent>,
    index: usize,
    entry: &LogEntry<'_>,
) -> Result<(), AllocError> {
    let Some(why) = why_ignored(&entry.event) else {
        return Ok(());
    };
    let (offset, pcr) = (entry.offset, entry.event.pcr_index().0);
    found.fallible_push(IgnoredEvent {
        index,
        offset,
        pcr,
        why,
    })?;
    Ok(())
}
