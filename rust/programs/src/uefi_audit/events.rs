// @generated from proved source. It is not edited.

use crate::uefi_audit::log_file::{LogFile, judge, judged_status};
use crate::uefi_audit::report::Report;
use crate::uefi_audit::request::{Format, Reading};
use crate::audit_text::json::push_events;
use crate::audit_text::text::{push_event_blocks, push_header_block};
use crate::support::alloc::AllocError;

/// Returns what is printed of the events of a log.
///
/// # Errors
///
/// [`AllocError`] if an allocation fails.
pub(crate) fn events_report(
    file: &LogFile<'_>,
    reading: Reading,
    format: Format,
) -> Result<Report, AllocError> {
    let (judgement, messages) = judge(file, reading.allow_left_over)?;
    let text = events_text(file, format, judgement.is_read())?;
    Ok(Report {
        text,
        messages,
        status: judged_status(judgement),
    })
}

/// Returns the events of a log in a format, if they are read.
fn events_text(
    file: &LogFile<'_>,
    format: Format,
    is_read: bool,
) -> Result<String, AllocError> {
    let mut text = String::new();
    if !is_read {
        return Ok(text);
    }
    match format {
        Format::Json => push_lines(&mut text, file)?,
        Format::Text => push_blocks(&mut text, file)?,
    }
    Ok(text)
}

/// Appends the line of each event.
fn push_lines(text: &mut String, file: &LogFile<'_>) -> Result<(), AllocError> {
    let (entries, uintn_size) = (file.read.entries(), file.read.uintn_size());
    push_events(text, file.name, entries, uintn_size)
}

/// Appends the block of the header, if there is one, and that of each event.
fn push_blocks(text: &mut String, file: &LogFile<'_>) -> Result<(), AllocError> {
    push_header(text, file)?;
    let (entries, uintn_size) = (file.read.entries(), file.read.uintn_size());
    push_event_blocks(text, file.name, entries, uintn_size)
}

/// Appends the block of a log's header, if there is one.
fn push_header(text: &mut String, file: &LogFile<'_>) -> Result<(), AllocError> {
    match &file.read.header() {
        Some(header) => push_header_block(text, file.name, header),
        None => Ok(()),
    }
}
