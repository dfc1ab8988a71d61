// @generated from proved source. It is not edited.

use crate::support::fallible::*;

use crate::uefi_audits::diff::changed::{EventPair, changed, changes_in};
use crate::uefi_audits::diff::compared::ComparedParts;
use crate::uefi_audits::diff::counterparts::{PairedEvent, alone, counterparts};
use crate::uefi_audits::diff::event_key::KeyedBy;
use crate::uefi_audits::diff::moved::first_moved;
use crate::uefi_audits::diff::pcr::{COMPARED, NumberedEntry, entries_of, first_difference, numbered_entries};
use uefi_formats::pcr::ReadLog;
use crate::support::alloc::AllocError;

/// How the events of a PCR differ between two logs.
#[derive(Debug)]
pub struct PcrDifference<'a> {
    /// The PCR; [`ABOVE`](crate::uefi_audits::diff::ABOVE) for those above 23, which are taken together.
    pub pcr: u32,
    /// The events that have a counterpart which isn't the same: first those whose data are, then
    /// the others, each in the order of the old log.
    pub changed: Vec<EventChange<'a>>,
    /// The events of the old log that have no counterpart, in order.
    pub only_old: Vec<NumberedEntry<'a>>,
    /// The events of the new log that have no counterpart, in order.
    pub only_new: Vec<NumberedEntry<'a>>,
    /// The first event with the same data in both logs, or the same digest if data aren't compared,
    /// that comes in the new log before one which it follows in the old log; `None` if there is none.
    pub moved: Option<EventChange<'a>>,
}

/// An event of the old log and its counterpart in the new one.
#[derive(Clone, Copy, Debug)]
pub struct EventChange<'a> {
    /// The event of the old log.
    pub old: NumberedEntry<'a>,
    /// Its counterpart.
    pub new: NumberedEntry<'a>,
}

/// The events of a PCR with their counterparts.
#[derive(Debug)]
pub(crate) struct Counterparts<'e, 'a> {
    /// The events of the old log with those of the new one that have the same data.
    pub(crate) of_old: Vec<PairedEvent<'e, 'a>>,
    /// And the other way round.
    pub(crate) of_new: Vec<PairedEvent<'e, 'a>>,
    /// Those that are left of the old log, with those left of the new one that have the same name.
    pub(crate) left_of_old: Vec<PairedEvent<'e, 'a>>,
    /// And the other way round.
    pub(crate) left_of_new: Vec<PairedEvent<'e, 'a>>,
}

/// Returns how the events of two logs differ, PCR by PCR, those above 23 together. A PCR whose
/// events are the same, in the same order, has no difference.
///
/// An event has at most one counterpart, of its PCR and its type. The first event with some data is
/// the counterpart of the first one with the same data in the other log, the second of the second,
/// and so on. Of the events that are left, those are counterparts in the same way whose data have
/// the same name: that and the GUID of a variable, the device path of an image, the first word of a
/// command of GRUB, the number of a tag, or none. Two counterparts are the same if the compared
/// parts are ([`is_same_event`](crate::uefi_audits::diff::is_same_event)).
///
/// If data aren't compared, events are counterparts in the same way if they have the same first
/// digest of the first algorithm, or none, and no others are.
///
/// The time is in proportion to n log n.
///
/// # Errors
///
/// [`AllocError`] if an allocation fails.
pub fn differences<'a>(
    parts: &ComparedParts<'_>,
    old: &ReadLog<'a>,
    new: &ReadLog<'a>,
) -> Result<Vec<PcrDifference<'a>>, AllocError> {
    let olds = numbered_entries(old)?;
    let news = numbered_entries(new)?;
    differences_of(parts, olds.as_slice(), news.as_slice())
}

/// Returns how these events of two logs differ, PCR by PCR.
fn differences_of<'a>(
    parts: &ComparedParts<'_>,
    olds: &[NumberedEntry<'a>],
    news: &[NumberedEntry<'a>],
) -> Result<Vec<PcrDifference<'a>>, AllocError> {
    let mut found = Vec::new();
    for pcr in 0..COMPARED {
        if let Some(difference) = pcr_difference(parts, olds, news, pcr)? {
            found.fallible_push(difference)?;
        }
    }
    Ok(found)
}

/// Returns how the events of a PCR differ; `None` if they don't.
fn pcr_difference<'a>(
    parts: &ComparedParts<'_>,
    olds: &[NumberedEntry<'a>],
    news: &[NumberedEntry<'a>],
    pcr: u32,
) -> Result<Option<PcrDifference<'a>>, AllocError> {
    let olds = entries_of(olds, pcr)?;
    let news = entries_of(news, pcr)?;
    let (olds, news) = (olds.as_slice(), news.as_slice());
    if first_difference(parts, olds, news)?.is_none() {
        return Ok(None);
    }
    let all = counterparts_of(parts, olds, news)?;
    let pairs = changes_in(all.of_old.as_slice())?;
    Ok(Some(PcrDifference {
        pcr,
        changed: changed_in(parts, pairs.as_slice(), all.left_of_old.as_slice())?,
        only_old: alone_copied(all.left_of_old.as_slice())?,
        only_new: alone_copied(all.left_of_new.as_slice())?,
        moved: first_moved(pairs.as_slice()),
    }))
}

/// Returns the events of a PCR with their counterparts.
fn counterparts_of<'e, 'a>(
    parts: &ComparedParts<'_>,
    olds: &[&'e NumberedEntry<'a>],
    news: &[&'e NumberedEntry<'a>],
) -> Result<Counterparts<'e, 'a>, AllocError> {
    let (first, second) = (KeyedBy::first(parts), KeyedBy::second(parts));
    let of_old = counterparts(olds, news, first)?;
    let of_new = counterparts(news, olds, first)?;
    let olds = alone(of_old.as_slice())?;
    let news = alone(of_new.as_slice())?;
    let (olds, news) = (olds.as_slice(), news.as_slice());
    let left_of_old = counterparts(olds, news, second)?;
    let left_of_new = counterparts(news, olds, second)?;
    Ok(Counterparts {
        of_old,
        of_new,
        left_of_old,
        left_of_new,
    })
}

/// Returns copies of the events that have no counterpart, in order.
fn alone_copied<'a>(
    all: &[PairedEvent<'_, 'a>],
) -> Result<Vec<NumberedEntry<'a>>, AllocError> {
    let found = alone(all)?;
    copies(found.as_slice())
}

/// Returns copies of these events.
fn copies<'a>(
    all: &[&NumberedEntry<'a>],
) -> Result<Vec<NumberedEntry<'a>>, AllocError> {
    let mut found = Vec::new();
    for entry in all {
        found.fallible_push(**entry)?;
    }
    Ok(found)
}

/// Returns the pairs whose events aren't the same: of these, and of events with their counterparts.
fn changed_in<'e, 'a>(
    parts: &ComparedParts<'_>,
    pairs: &[EventPair<'e, 'a>],
    left: &[PairedEvent<'e, 'a>],
) -> Result<Vec<EventChange<'a>>, AllocError> {
    let mut all = Vec::new();
    all.fallible_extend_from_slice(pairs)?;
    let left = changes_in(left)?;
    all.fallible_extend_from_slice(left.as_slice())?;
    changed(parts, all.as_slice())
}
