// @generated from proved source. It is not edited.

use crate::support::fallible::*;

use crate::uefi_audits::diff::event_key::{EventKey, KeyedBy, RankedKey};
use crate::uefi_audits::diff::pcr::NumberedEntry;
use crate::support::alloc::AllocError;
use crate::support::collections::BTreeMap;

/// An event of a log with its counterpart in another.
#[derive(Clone, Copy, Debug)]
pub(crate) struct PairedEvent<'e, 'a> {
    /// The event.
    pub(crate) found: &'e NumberedEntry<'a>,
    /// Its counterpart; `None` if it has none.
    pub(crate) counterpart: Option<&'e NumberedEntry<'a>>,
}

/// An event with its key.
#[derive(Clone, Copy, Debug)]
pub(crate) struct RankedEvent<'e, 'a> {
    pub(crate) key: RankedKey<'a>,
    pub(crate) found: &'e NumberedEntry<'a>,
}

/// Returns each of these events with its counterpart among the others: of those that have one key
/// the first is the counterpart of the first, the second of the second, and so on.
pub(crate) fn counterparts<'e, 'a>(
    events: &[&'e NumberedEntry<'a>],
    others: &[&'e NumberedEntry<'a>],
    by: KeyedBy,
) -> Result<Vec<PairedEvent<'e, 'a>>, AllocError> {
    let events = ranked(events, by)?;
    let others = ranked(others, by)?;
    let places = places_of(others.as_slice())?;
    each_paired(events.as_slice(), &places)
}

/// Returns each event with its key, and with how many events before it have that key.
fn ranked<'e, 'a>(
    events: &[&'e NumberedEntry<'a>],
    by: KeyedBy,
) -> Result<Vec<RankedEvent<'e, 'a>>, AllocError> {
    let mut counts = BTreeMap::new();
    let mut all = Vec::new();
    for found in events {
        let key = EventKey::new(found, by);
        let rank = counts.get(&key).copied().unwrap_or(0);
        counts.insert(key, rank + 1)?;
        let key = RankedKey { key, rank };
        all.fallible_push(RankedEvent { key, found: *found })?;
    }
    Ok(all)
}

/// Returns the events by their keys.
fn places_of<'e, 'a>(
    all: &[RankedEvent<'e, 'a>],
) -> Result<BTreeMap<RankedKey<'a>, &'e NumberedEntry<'a>>, AllocError> {
    let mut places = BTreeMap::new();
    for ranked in all {
        places.insert(ranked.key, ranked.found)?;
    }
    Ok(places)
}

/// Returns each event with the other one that has its key.
fn each_paired<'e, 'a>(
    all: &[RankedEvent<'e, 'a>],
    places: &BTreeMap<RankedKey<'a>, &'e NumberedEntry<'a>>,
) -> Result<Vec<PairedEvent<'e, 'a>>, AllocError> {
    let mut found = Vec::new();
    for ranked in all {
        found.fallible_push(PairedEvent {
            found: ranked.found,
            counterpart: places.get(&ranked.key).copied(),
        })?;
    }
    Ok(found)
}

/// Returns the events that have no counterpart, in order.
pub(crate) fn alone<'e, 'a>(
    all: &[PairedEvent<'e, 'a>],
) -> Result<Vec<&'e NumberedEntry<'a>>, AllocError> {
    let mut found = Vec::new();
    for paired in all {
        if paired.counterpart.is_none() {
            found.fallible_push(paired.found)?;
        }
    }
    Ok(found)
}
