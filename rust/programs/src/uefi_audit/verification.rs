// @generated from proved source. It is not edited.

use crate::uefi_audit::failure::Status;
use crate::uefi_audit::log_file::{LogFile, Opened, judge};
use crate::uefi_audit::replay::has_no_pcr;
use crate::uefi_audit::report::Report;
use crate::uefi_audit::request::{Format, Reading};
use crate::audit_text::json::{NotJudged, push_verdict_json};
use crate::audit_text::text::{
    push_ignored, push_inactive, push_missing, push_start, push_uncompared, push_verdict,
};
use crate::support::alloc::AllocError;
use crate::uefi_audits::ignored::{IgnoredEvent, ignored_events};
use crate::uefi_audits::judgement::Judgement;
use crate::uefi_audits::log_replay::inactive_banks;
use crate::uefi_audits::verify::{ComparedPcrs, HeldPcr, PcrSelection, Verdict, held_banks};

/// The PCRs that a TPM is said to have held, and how `verify` compares a log with them.
#[derive(Clone, Copy, Debug)]
pub(crate) struct StatedPcrs<'a> {
    /// The name of the log.
    pub log: &'a str,
    /// The name of the PCRs' file.
    pub file: &'a str,
    /// The PCRs.
    pub pcrs: &'a [HeldPcr],
    /// Those that are asked for; all without a selection.
    pub selections: &'a [PcrSelection],
    /// The locality at which the TPM was started.
    pub locality: Option<u8>,
    /// How the result is printed.
    pub format: Format,
}

/// Returns what `verify` prints of a log.
///
/// # Errors
///
/// [`AllocError`] if an allocation fails.
pub(crate) fn verify_report(
    log: Opened<'_>,
    reading: Reading,
    stated: &StatedPcrs<'_>,
) -> Result<Report, AllocError> {
    match log {
        Opened::Refused(report) => report.refused_as(stated.log, stated.format),
        Opened::Read(file) => verification_report(&file, reading, stated),
    }
}

/// Returns what is printed of whether a log leads to the PCRs that a TPM held.
///
/// # Errors
///
/// [`AllocError`] if an allocation fails.
fn verification_report(
    file: &LogFile<'_>,
    reading: Reading,
    stated: &StatedPcrs<'_>,
) -> Result<Report, AllocError> {
    let (judgement, messages) = judge(file, reading.allow_left_over)?;
    judged_report(judgement, messages, file, stated)
}

/// Returns what is printed after these messages of a log with this judgement.
fn judged_report(
    judgement: Judgement,
    messages: String,
    file: &LogFile<'_>,
    stated: &StatedPcrs<'_>,
) -> Result<Report, AllocError> {
    let (name, format) = (file.name, stated.format);
    match judgement {
        Judgement::Accepted => {
            let compared = compare(file, stated)?;
            compared_report(messages, file, stated, &compared)
        }
        Judgement::NothingMeasured => {
            Report::unjudged_as(messages, name, format, NotJudged::NothingMeasured)
        }
        Judgement::LeftOver => {
            Report::unjudged_as(messages, name, format, NotJudged::LeftOver)
        }
    }
}

/// Returns the verdict on the PCRs that are selected.
///
/// # Errors
///
/// [`AllocError`] if an allocation fails.
pub(crate) fn compare(
    file: &LogFile<'_>,
    stated: &StatedPcrs<'_>,
) -> Result<ComparedPcrs, AllocError> {
    let (entries, selections) = (file.read.entries(), stated.selections);
    ComparedPcrs::new(entries, stated.pcrs, selections, stated.locality)
}

/// Returns what is printed of a verdict after these messages, unless PCRs that are asked for are missing.
fn compared_report(
    messages: String,
    file: &LogFile<'_>,
    stated: &StatedPcrs<'_>,
    found: &ComparedPcrs,
) -> Result<Report, AllocError> {
    if !found.coverage.missing.is_empty() {
        return lacking_report(messages, file.name, stated, found);
    }
    verdict_report(messages, file, stated, found)
}

/// Returns what is printed after these messages of PCRs of which some that are asked for are missing.
///
/// # Errors
///
/// [`AllocError`] if an allocation fails.
pub(crate) fn lacking_report(
    messages: String,
    name: &str,
    stated: &StatedPcrs<'_>,
    compared: &ComparedPcrs,
) -> Result<Report, AllocError> {
    let mut messages = messages;
    push_missing(
        &mut messages,
        stated.file,
        compared.coverage.missing.as_slice(),
    )?;
    let mut text = String::new();
    match stated.format {
        Format::Text => {}
        Format::Json => push_verdict_json(&mut text, name, compared)?,
    }
    Ok(Report {
        text,
        messages,
        status: Status::Unjudged,
    })
}

/// Returns what is printed of a verdict after these messages.
fn verdict_report(
    messages: String,
    file: &LogFile<'_>,
    stated: &StatedPcrs<'_>,
    compared: &ComparedPcrs,
) -> Result<Report, AllocError> {
    let mut messages = messages;
    let ignored = ignored_events(file.read.entries())?;
    let held = held_banks(compared.held.as_slice())?;
    let inactive = inactive_banks(file.read.entries(), held.as_slice())?;
    push_start(&mut messages, file.name, &compared.verdict.start)?;
    push_inactive(&mut messages, file.name, inactive.as_slice())?;
    push_ignored(&mut messages, file.name, ignored.as_slice())?;
    push_uncompared(
        &mut messages,
        file.name,
        compared.coverage.extended.as_slice(),
    )?;
    Ok(Report {
        text: verdict_text(file.name, compared, stated.format)?,
        messages,
        status: status_of(&compared.verdict, ignored.as_slice()),
    })
}

/// Returns a verdict in a format.
pub(crate) fn verdict_text(
    name: &str,
    compared: &ComparedPcrs,
    format: Format,
) -> Result<String, AllocError> {
    let (held, verdict) = (compared.held.as_slice(), &compared.verdict);
    let mut text = String::new();
    match format {
        Format::Text => push_verdict(&mut text, name, held, verdict)?,
        Format::Json => push_verdict_json(&mut text, name, compared)?,
    }
    Ok(text)
}

/// Returns the status of a verdict: a log is unjudged if a PCR is undetermined, and it differs if one
/// does, or one of the events without effect should have extended a PCR that no TPM has.
pub(crate) fn status_of(verdict: &Verdict, ignored: &[IgnoredEvent]) -> Status {
    if verdict.undetermined > 0 {
        return Status::Unjudged;
    }
    if has_no_pcr(ignored) || !verdict.is_agreement() {
        return Status::Differs;
    }
    Status::Well
}
