// @generated from proved source. It is not edited.

use crate::support::fallible::*;

use crate::uefi_audits::diff::compared::{ComparedParts, is_same_event};
use crate::uefi_audits::diff::counterparts::PairedEvent;
use crate::uefi_audits::diff::difference::EventChange;
use crate::uefi_audits::diff::pcr::NumberedEntry;
use crate::support::alloc::AllocError;

/// An event of the old log and its counterpart in the new one.
#[derive(Clone, Copy, Debug)]
pub(crate) struct EventPair<'e, 'a> {
    /// The event of the old log.
    pub(crate) old: &'e NumberedEntry<'a>,
    /// Its counterpart.
    pub(crate) new: &'e NumberedEntry<'a>,
}

impl<'e, 'a> EventPair<'e, 'a> {
    /// Returns the pair with copies of its events.
    pub(crate) fn copied(&self) -> EventChange<'a> {
        EventChange {
            old: *self.old,
            new: *self.new,
        }
    }
}

/// Returns each event that has a counterpart, with it, in order.
pub(crate) fn changes_in<'e, 'a>(
    all: &[PairedEvent<'e, 'a>],
) -> Result<Vec<EventPair<'e, 'a>>, AllocError> {
    let mut found = Vec::new();
    for paired in all {
        let old = paired.found;
        if let Some(new) = paired.counterpart {
            found.fallible_push(EventPair { old, new })?;
        }
    }
    Ok(found)
}

/// Returns the pairs whose events aren't the same, in order.
pub(crate) fn changed<'a>(
    parts: &ComparedParts<'_>,
    pairs: &[EventPair<'_, 'a>],
) -> Result<Vec<EventChange<'a>>, AllocError> {
    let mut found = Vec::new();
    for pair in pairs {
        if !is_same_event(parts, &pair.old.entry.event, &pair.new.entry.event)? {
            found.fallible_push(pair.copied())?;
        }
    }
    Ok(found)
}
