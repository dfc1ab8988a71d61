// @generated from proved source. It is not edited.

//! What the digests of all events of a log say of their data.

use crate::support::fallible::*;

use crate::uefi_audits::check::counts::{TypeCounts, counts_of};
use crate::uefi_audits::check::{Checked, check};
use crate::uefi_audits::out_of_place::{Remarks, remarks_on};
use crate::uefi_audits::verify::{NamedPcr, extends};
use uefi_formats::pcr::has_digest;
use crate::support::alloc::AllocError;
use uefi_formats::proto::tcg::{EventType, LogEntry, LogEvent};

/// An event of a log that matches in none of the forms of its type.
#[derive(Clone, Copy, Debug)]
pub struct Mismatch<'a> {
    /// Its index in the log: 0 for the first one.
    pub index: usize,
    /// The event with its offset.
    pub entry: LogEntry<'a>,
}

/// What was found of the events of a log.
#[derive(Debug)]
pub struct CheckResult<'a> {
    /// The events that match in none of the forms of their types, in order.
    pub mismatches: Vec<Mismatch<'a>>,
    /// The events that are out of place, and the PCRs without a separator.
    pub remarks: Remarks<'a>,
    /// How many events of each type match, in the order of the types' numbers. A type of which there
    /// is no event isn't among them.
    pub types: Vec<TypeCounts>,
}

/// An event of a log, and what its digests say of its data.
#[derive(Clone, Copy, Debug)]
pub(crate) struct CheckedEntry<'a> {
    /// The event with its offset.
    pub(crate) entry: LogEntry<'a>,
    /// What its digests say; `None` if it isn't covered.
    pub(crate) checked: Option<Checked>,
}

impl CheckedEntry<'_> {
    /// Returns the event's PCR.
    pub(crate) fn pcr(&self) -> u32 {
        self.entry.event.pcr_index().0
    }

    /// Returns whether the event has this type.
    pub(crate) fn has_type(&self, event_type: EventType) -> bool {
        self.entry.event.event_type() == event_type
    }
}

/// Returns what [`check`] finds of the events of a log: those that match in none of the forms of
/// their types, those that are out of place, and how many of each type match.
///
/// Whoever writes a log can give an event of another PCR any data, with their hash as its digest.
/// So where it is known which PCRs are covered, by a quote or otherwise, an event counts if it
/// extends one of them, in a bank of which it has a digest; the others are counted as not covered.
/// Without `covered` each event counts.
///
/// # Errors
///
/// [`AllocError`] if an allocation fails.
pub fn check_entries<'a>(
    entries: &[LogEntry<'a>],
    covered: Option<&[NamedPcr]>,
) -> Result<CheckResult<'a>, AllocError> {
    let checked = checked_entries(entries, covered)?;
    let mismatches = mismatches_in(checked.as_slice())?;
    let remarks = remarks_on(checked.as_slice())?;
    let types = counts_of(checked.as_slice())?;
    Ok(CheckResult {
        mismatches,
        remarks,
        types,
    })
}

/// Returns the events, each with what its digests say, if it is covered.
fn checked_entries<'a>(
    entries: &[LogEntry<'a>],
    covered: Option<&[NamedPcr]>,
) -> Result<Vec<CheckedEntry<'a>>, AllocError> {
    let mut found = Vec::new();
    for entry in entries {
        let checked = checked_if_covered(&entry.event, covered)?;
        found.fallible_push(CheckedEntry {
            entry: *entry,
            checked,
        })?;
    }
    Ok(found)
}

/// Returns what the digests of an event say, if it is covered.
fn checked_if_covered(
    event: &LogEvent<'_>,
    covered: Option<&[NamedPcr]>,
) -> Result<Option<Checked>, AllocError> {
    if !is_covered(event, covered) {
        return Ok(None);
    }
    let checked = check(event)?;
    Ok(Some(checked))
}

/// Returns whether an event extends one of these PCRs, in a bank of which it has a digest. Without
/// PCRs each event is covered.
fn is_covered(event: &LogEvent<'_>, covered: Option<&[NamedPcr]>) -> bool {
    match covered {
        Some(pcrs) => pcrs
            .iter()
            .any(|it| extends(event, it.pcr) && has_digest(it.bank, event)),
        None => true,
    }
}

/// Returns the events that match in none of the forms of their types.
fn mismatches_in<'a>(
    all: &[CheckedEntry<'a>],
) -> Result<Vec<Mismatch<'a>>, AllocError> {
    let mut found = Vec::new();
    for index in 0..all.len() {
        push_if_mismatch(&mut found, index, &all[index])?;
    }
    Ok(found)
}

/// Appends an event, if it matches in none of the forms of its type.
fn push_if_mismatch<'a>(
    found: &mut Vec<Mismatch<'a>>,
    index: usize,
    it: &CheckedEntry<'a>,
) -> Result<(), AllocError> {
    if it.checked != Some(Checked::MatchesNone) {
        return Ok(());
    }
    let entry = it.entry;
    found.fallible_push(Mismatch { index, entry })?;
    Ok(())
}
