// @generated from proved source. It is not edited.

//! How two event logs differ, as the lines that the program `uefi_audit` prints.

pub use self::change::push_change;
use self::lines::{push_changed_line, push_compared_line, push_earlier_line, push_only_line};
use crate::audit_text::ComparedLogs;
use crate::support::alloc::AllocError;
use crate::uefi_audits::diff::{EventDifference, PcrDifference, event_differences};

mod change;
mod lines;

/// Appends how the events of two logs differ.
///
///
/// The first line names the algorithms whose digests are compared. Then, PCR by PCR, there is a line
/// for each event that differs from its counterpart, with what changed ([`push_change`]), one for
/// each event that only the old log has, one for each that only the new log has, and one for the
/// first event whose order is another. An event is named by its type and what its data say
/// ([`push_said`](crate::audit_text::words::push_said)), one whose data changed by the name in them; its index
/// and its offset follow. What no digest covers is marked: all that the data of an image or
/// a blob say, whose digests follow then, and the name of a variable whose value alone is measured.
///
/// # Errors
///
/// [`AllocError`] if an allocation fails. The text may have grown then.
pub fn push_differences(
    text: &mut String,
    logs: &ComparedLogs<'_>,
    differences: &[PcrDifference<'_>],
) -> Result<(), AllocError> {
    push_compared_line(text, logs.algorithms)?;
    let differences = event_differences(differences)?;
    push_each(text, logs, differences.as_slice())
}

/// Appends a line for each of these differences.
fn push_each(
    text: &mut String,
    logs: &ComparedLogs<'_>,
    differences: &[EventDifference<'_, '_>],
) -> Result<(), AllocError> {
    for difference in differences {
        push_difference(text, logs, difference)?;
    }
    Ok(())
}

/// Appends the line of a difference.
fn push_difference(
    text: &mut String,
    logs: &ComparedLogs<'_>,
    difference: &EventDifference<'_, '_>,
) -> Result<(), AllocError> {
    match difference {
        EventDifference::Changed(change) => push_changed_line(text, logs, change),
        EventDifference::OnlyOld(found) => push_only_line(text, logs, found),
        EventDifference::OnlyNew(found) => push_only_line(text, &reversed(logs), found),
        EventDifference::Moved(change) => push_earlier_line(text, logs, change),
    }
}

/// Returns the logs the other way round.
fn reversed<'a>(logs: &ComparedLogs<'a>) -> ComparedLogs<'a> {
    ComparedLogs {
        old_name: logs.new_name,
        new_name: logs.old_name,
        algorithms: logs.algorithms,
    }
}
