// @generated from proved source. It is not edited.

use crate::uefi_audit::failure::Status;
use crate::uefi_audit::log_file::{LogFile, judge, judged_status};
use crate::uefi_audit::report::Report;
use crate::uefi_audit::request::{Format, Reading};
use crate::audit_text::json::push_check_json;
use crate::audit_text::text::push_check;
use crate::support::alloc::AllocError;
use uefi_formats::pcr::{Quote, QuoteError};
use crate::uefi_audits::check::{CheckResult, check_entries};
use crate::uefi_audits::verify::{NamedPcr, covered_pcrs};

/// Returns what is printed of the events of a log: those whose digests aren't the hash of what their
/// type measures, those that are out of place, and how many of each type match. These PCRs are
/// covered, or all.
///
/// # Errors
///
/// [`AllocError`] if an allocation fails.
pub(crate) fn check_report(
    file: &LogFile<'_>,
    reading: Reading,
    covered: Option<&[NamedPcr]>,
    format: Format,
) -> Result<Report, AllocError> {
    let (judgement, messages) = judge(file, reading.allow_left_over)?;
    let status = judged_status(judgement);
    if !judgement.is_read() {
        let text = String::new();
        return Ok(Report {
            text,
            messages,
            status,
        });
    }
    let found = check_entries(file.read.entries(), covered)?;
    let text = found_text(format, file.name, &found)?;
    let status = status.and(found_status(&found));
    Ok(Report {
        text,
        messages,
        status,
    })
}

/// Returns the PCRs that the quote in these bytes covers, or why the bytes are none.
///
/// # Errors
///
/// [`AllocError`] if an allocation fails.
pub(crate) fn quoted_pcrs(
    bytes: &[u8],
) -> Result<Result<Vec<NamedPcr>, QuoteError>, AllocError> {
    match Quote::try_from(bytes) {
        Ok(quote) => {
            let covered = covered_pcrs(&quote)?;
            Ok(Ok(covered))
        }
        Err(error) => Ok(Err(error)),
    }
}

/// Returns what was found of the events of a log, in a format.
fn found_text(
    format: Format,
    name: &str,
    found: &CheckResult<'_>,
) -> Result<String, AllocError> {
    let mut text = String::new();
    match format {
        Format::Text => push_check(&mut text, name, found)?,
        Format::Json => push_check_json(&mut text, name, found)?,
    }
    Ok(text)
}

/// Returns the status of what was found of a log: whether no event is a mismatch, and no remark counts
/// against the log.
fn found_status(found: &CheckResult<'_>) -> Status {
    if !found.mismatches.is_empty() || found.remarks.are_faults() {
        return Status::Differs;
    }
    Status::Well
}
