// @generated from proved source. It is not edited.

use crate::audit_text::json::event::event_line;
use crate::support::alloc::AllocError;
use uefi_formats::proto::tcg::{LogEntry, UintnSize};

/// Appends the events of a log in order, each as one line of JSON: that of [`event_line`] with the
/// log's name and the event's index, and a line break. The log has a `UINTN` of this size
/// ([`ReadLog::uintn_size`](uefi_formats::pcr::ReadLog::uintn_size)).
///
/// # Errors
///
/// [`AllocError`] if an allocation fails. The text may have grown then.
pub fn push_events(
    text: &mut String,
    name: &str,
    entries: &[LogEntry<'_>],
    uintn_size: UintnSize,
) -> Result<(), AllocError> {
    for index in 0..entries.len() {
        let line = event_line(name, index, &entries[index], uintn_size)?;
        fallible_writeln!(text, "{line}")?;
    }
    Ok(())
}
