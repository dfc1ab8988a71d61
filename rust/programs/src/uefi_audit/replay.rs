// @generated from proved source. It is not edited.

use crate::uefi_audit::failure::Status;
use crate::uefi_audit::log_file::{LogFile, judge, judged_status};
use crate::uefi_audit::report::Report;
use crate::uefi_audit::request::{Format, Reading};
use crate::audit_text::json::push_replay_json;
use crate::audit_text::text::{
    push_banks, push_ignored, push_inactive, push_start, push_undetermined, push_unsupported,
};
use uefi_formats::pcr::Bank;
use crate::shown::ShownName;
use crate::support::alloc::AllocError;
use crate::uefi_audits::facts::LogFacts;
use crate::uefi_audits::ignored::IgnoredEvent;
use crate::uefi_audits::log_replay::LogReplay;

/// What `replay` asks for.
#[derive(Clone, Copy, Debug)]
pub(crate) struct Asked {
    /// The one bank, or all that are active.
    pub bank: Option<Bank>,
    /// The locality at which the TPM was started, or the one that the log states.
    pub locality: Option<u8>,
    /// How the PCRs are printed.
    pub format: Format,
    /// Whether the log is one of many, so that its name is printed above its PCRs.
    pub is_one_of_many: bool,
}

/// Returns what is printed of the PCRs that a log leads to.
///
/// # Errors
///
/// [`AllocError`] if an allocation fails.
pub(crate) fn replay_report(
    file: &LogFile<'_>,
    reading: Reading,
    asked: Asked,
) -> Result<Report, AllocError> {
    let (judgement, messages) = judge(file, reading.allow_left_over)?;
    let facts = LogFacts::of(&file.read, asked.locality)?;
    if !judgement.is_read() {
        return refused_report(messages, file.name, &facts, asked);
    }
    let report = replayed_report(messages, file, &facts, asked)?;
    Ok(Report {
        text: report.text,
        messages: report.messages,
        status: judged_status(judgement).and(report.status),
    })
}

/// Returns what is printed after these messages of a log with trailing bytes that aren't allowed: as JSON
/// an object without PCRs.
fn refused_report(
    messages: String,
    name: &str,
    facts: &LogFacts,
    asked: Asked,
) -> Result<Report, AllocError> {
    let mut text = String::new();
    match asked.format {
        Format::Text => {}
        Format::Json => push_replay_json(&mut text, name, facts, None)?,
    }
    Ok(Report {
        text,
        messages,
        status: Status::Unjudged,
    })
}

/// Returns what is printed after these messages of the PCRs that a log leads to.
fn replayed_report(
    messages: String,
    file: &LogFile<'_>,
    facts: &LogFacts,
    asked: Asked,
) -> Result<Report, AllocError> {
    let replay = LogReplay::of(file.read.entries(), facts, asked.bank)?;
    let mut messages = messages;
    push_messages(
        &mut messages,
        file.name,
        facts,
        &replay,
        asked.is_one_of_many,
    )?;
    let text = replay_text(file.name, facts, &replay, asked)?;
    let status = status_of(&replay);
    Ok(Report {
        text,
        messages,
        status,
    })
}

/// Returns PCRs in the format that is asked for.
fn replay_text(
    name: &str,
    facts: &LogFacts,
    replay: &LogReplay,
    asked: Asked,
) -> Result<String, AllocError> {
    let mut text = String::new();
    match asked.format {
        Format::Text => {
            push_name(&mut text, name, asked.is_one_of_many)?;
            push_banks(&mut text, replay.banks.as_slice())?;
        }
        Format::Json => {
            let banks = Some(replay.banks.as_slice());
            push_replay_json(&mut text, name, facts, banks)?;
        }
    }
    Ok(text)
}

/// Appends the messages on a replay: the locality that is assumed, unless the log is one of many, the
/// banks that weren't replayed, the PCRs that are undetermined, and the events without effect.
fn push_messages(
    messages: &mut String,
    name: &str,
    facts: &LogFacts,
    replay: &LogReplay,
    is_one_of_many: bool,
) -> Result<(), AllocError> {
    if !is_one_of_many {
        push_start(messages, name, &facts.start)?;
    }
    push_inactive(messages, name, replay.inactive.as_slice())?;
    push_unsupported(messages, name, replay.unsupported.as_slice())?;
    push_undetermined(messages, name, replay.banks.as_slice())?;
    push_ignored(messages, name, replay.ignored.as_slice())
}

/// Appends the line with a log's name, if it is one of many.
fn push_name(text: &mut String, name: &str, is_one_of_many: bool) -> Result<(), AllocError> {
    if !is_one_of_many {
        return Ok(());
    }
    let name = ShownName(name);
    fallible_writeln!(text, "{name}:")
}

/// Returns the status of a replay: a log is unjudged if no bank was replayed or a PCR of one is
/// undetermined, and it differs if an event should have extended a PCR that no TPM has.
fn status_of(replay: &LogReplay) -> Status {
    if replay.is_undetermined() {
        return Status::Unjudged;
    }
    if has_no_pcr(replay.ignored.as_slice()) {
        return Status::Differs;
    }
    Status::Well
}

/// Returns whether one of these events should have extended a PCR that no TPM has.
pub(crate) fn has_no_pcr(events: &[IgnoredEvent]) -> bool {
    events.iter().any(|event| event.is_of_no_pcr())
}
