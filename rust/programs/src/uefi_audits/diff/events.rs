// @generated from proved source. It is not edited.

use crate::support::fallible::*;

use crate::uefi_audits::diff::difference::{EventChange, PcrDifference};
use crate::uefi_audits::diff::pcr::NumberedEntry;
use crate::support::alloc::AllocError;

/// A difference in one event of two logs.
#[derive(Clone, Copy, Debug)]
pub enum EventDifference<'d, 'a> {
    /// An event whose counterpart isn't the same.
    Changed(&'d EventChange<'a>),
    /// An event of the old log that has no counterpart.
    OnlyOld(&'d NumberedEntry<'a>),
    /// An event of the new log that has no counterpart.
    OnlyNew(&'d NumberedEntry<'a>),
    /// The first event of a PCR whose order is another.
    Moved(&'d EventChange<'a>),
}

/// Returns the differences in single events, PCR by PCR: the events that changed, those that only
/// the old log has, those that only the new log has, and the first one whose order is another.
///
/// # Errors
///
/// [`AllocError`] if an allocation fails.
pub fn event_differences<'d, 'a>(
    differences: &'d [PcrDifference<'a>],
) -> Result<Vec<EventDifference<'d, 'a>>, AllocError> {
    let mut found = Vec::new();
    for difference in differences {
        push_events(&mut found, difference)?;
    }
    Ok(found)
}

/// Appends the differences of a PCR.
fn push_events<'d, 'a>(
    found: &mut Vec<EventDifference<'d, 'a>>,
    difference: &'d PcrDifference<'a>,
) -> Result<(), AllocError> {
    push_changed(found, difference.changed.as_slice())?;
    push_only_old(found, difference.only_old.as_slice())?;
    push_only_new(found, difference.only_new.as_slice())?;
    if let Some(change) = &difference.moved {
        found.fallible_push(EventDifference::Moved(change))?;
    }
    Ok(())
}

/// Appends the events that changed.
fn push_changed<'d, 'a>(
    found: &mut Vec<EventDifference<'d, 'a>>,
    changes: &'d [EventChange<'a>],
) -> Result<(), AllocError> {
    for change in changes {
        found.fallible_push(EventDifference::Changed(change))?;
    }
    Ok(())
}

/// Appends the events that only the old log has.
fn push_only_old<'d, 'a>(
    found: &mut Vec<EventDifference<'d, 'a>>,
    only: &'d [NumberedEntry<'a>],
) -> Result<(), AllocError> {
    for entry in only {
        found.fallible_push(EventDifference::OnlyOld(entry))?;
    }
    Ok(())
}

/// Appends the events that only the new log has.
fn push_only_new<'d, 'a>(
    found: &mut Vec<EventDifference<'d, 'a>>,
    only: &'d [NumberedEntry<'a>],
) -> Result<(), AllocError> {
    for entry in only {
        found.fallible_push(EventDifference::OnlyNew(entry))?;
    }
    Ok(())
}
