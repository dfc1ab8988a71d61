// @generated from proved source. It is not edited.

use crate::support::fallible::*;

use crate::uefi_audits::content::{EventContent, read_content};
use crate::uefi_audits::diff::compared::{ComparedParts, is_same_event};
use uefi_formats::pcr::ReadLog;
use crate::support::alloc::AllocError;
use uefi_formats::proto::tcg::LogEntry;

/// How many PCRs are compared: the 24 that a TPM has, and those above as one.
pub(crate) const COMPARED: u32 = 25;

/// The PCR as which those above 23 are taken together.
pub const ABOVE: u32 = 24;

/// An event of a log with its index, and what its data say.
#[derive(Clone, Copy, Debug)]
pub struct NumberedEntry<'a> {
    /// Its index in the log: 0 for the first one.
    pub index: usize,
    /// The event with its offset.
    pub entry: LogEntry<'a>,
    /// What the event's data say.
    pub content: EventContent<'a>,
}

/// Returns the events of a log, each with its index and what its data say.
///
/// # Errors
///
/// [`AllocError`] if an allocation fails.
pub fn numbered_entries<'a>(
    read: &ReadLog<'a>,
) -> Result<Vec<NumberedEntry<'a>>, AllocError> {
    let (entries, uintn_size) = (read.entries(), read.uintn_size());
    let mut found = Vec::new();
    for (index, entry) in entries.iter().enumerate() {
        let content = read_content(&entry.event, uintn_size);
        found.fallible_push(NumberedEntry {
            index,
            entry: *entry,
            content,
        })?;
    }
    Ok(found)
}

/// Returns the events of a PCR among these, in order; for PCR 24, those of all above 23.
pub(crate) fn entries_of<'e, 'a>(
    all: &'e [NumberedEntry<'a>],
    pcr: u32,
) -> Result<Vec<&'e NumberedEntry<'a>>, AllocError> {
    let mut found = Vec::new();
    for entry in all {
        if is_of(pcr, &entry.entry) {
            found.fallible_push(entry)?;
        }
    }
    Ok(found)
}

/// Returns whether an event is of a PCR; for PCR 24, whether it is of one above 23.
fn is_of(pcr: u32, entry: &LogEntry<'_>) -> bool {
    let of = entry.event.pcr_index().0;
    of.min(ABOVE) == pcr
}

/// Returns the first place at which the events differ, or one list has an event and the other none.
pub(crate) fn first_difference(
    parts: &ComparedParts<'_>,
    old: &[&NumberedEntry<'_>],
    new: &[&NumberedEntry<'_>],
) -> Result<Option<usize>, AllocError> {
    for at in 0..old.len().max(new.len()) {
        let (one, other) = (old.get(at).copied(), new.get(at).copied());
        if !is_same_or_none(parts, one, other)? {
            return Ok(Some(at));
        }
    }
    Ok(None)
}

/// Returns whether there are two events that are the same, or none.
fn is_same_or_none(
    parts: &ComparedParts<'_>,
    one: Option<&NumberedEntry<'_>>,
    other: Option<&NumberedEntry<'_>>,
) -> Result<bool, AllocError> {
    match (one, other) {
        (Some(one), Some(other)) => {
            is_same_event(parts, &one.entry.event, &other.entry.event)
        }
        (None, None) => Ok(true),
        _ => Ok(false),
    }
}
