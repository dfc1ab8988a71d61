// @generated from proved source. It is not edited.

//! The lines of the remarks on the places of a log's events.

use super::uncompared::push_others;
use crate::audit_text::words::{push_type, rule_name};
use crate::shown::ShownName;
use crate::support::alloc::AllocError;
use crate::uefi_audits::out_of_place::{OutOfPlace, Remarks};

/// Appends the remarks: a line for each event that is out of place, and one for the PCRs without a
/// separator.
pub(super) fn push_remarks(
    text: &mut String,
    name: &str,
    remarks: &Remarks<'_>,
) -> Result<(), AllocError> {
    push_events(text, name, remarks.events.as_slice())?;
    push_unseparated(text, name, remarks.unseparated.as_slice())
}

/// Appends a line for each event that is out of place.
fn push_events(
    text: &mut String,
    name: &str,
    events: &[OutOfPlace<'_>],
) -> Result<(), AllocError> {
    for event in events {
        push_event(text, name, event)?;
    }
    Ok(())
}

/// Appends the line of an event that is out of place.
fn push_event(
    text: &mut String,
    name: &str,
    found: &OutOfPlace<'_>,
) -> Result<(), AllocError> {
    let (name, index, offset) = (ShownName(name), found.index, found.entry.offset);
    fallible_write!(text, "{name}: event {index} at offset {offset} (")?;
    push_type(text, found.entry.event.event_type())?;
    let (pcr, rule) = (found.entry.event.pcr_index().0, rule_name(found.rule));
    fallible_writeln!(text, ", PCR {pcr}) is out of place: {rule}")
}

/// Appends which PCRs have no separator, if there are any.
fn push_unseparated(
    text: &mut String,
    name: &str,
    pcrs: &[u32],
) -> Result<(), AllocError> {
    match pcrs {
        [] => Ok(()),
        [first, others @ ..] => push_pcrs(text, name, *first, others),
    }
}

/// Appends the line of a PCR without a separator and further ones.
fn push_pcrs(
    text: &mut String,
    name: &str,
    first: u32,
    others: &[u32],
) -> Result<(), AllocError> {
    let name = ShownName(name);
    fallible_write!(text, "{name}: PCR {first}")?;
    push_others(text, others)?;
    fallible_writeln!(text, " without a separator")
}
