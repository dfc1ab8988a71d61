// @generated from proved source. It is not edited.

use crate::uefi_audit::failure::Status;
use crate::uefi_audit::report::Report;
use crate::uefi_audit::request::Reading;
use crate::audit_text::text::{push_header_fault, push_judgement, push_many_algorithms};
use uefi_formats::pcr::ReadLog;
use crate::shown::ShownName;
use crate::support::alloc::AllocError;
use crate::uefi_audits::header_fault::header_fault;
use crate::uefi_audits::judgement::Judgement;
use crate::uefi_audits::known_start::KnownStart;
use crate::uefi_audits::trailing::Trailing;
use uefi_formats::proto::tcg::{LastEntry, Log, LogError};

/// An event log that was read from a file: the name to print, and what was read.
#[derive(Debug)]
pub(crate) struct LogFile<'a> {
    /// The file's name, as the caller gave it.
    pub name: &'a str,
    /// The log.
    pub read: ReadLog<'a>,
    /// Why it isn't whole, if it isn't.
    pub fault: Option<LogError>,
}

impl LogFile<'_> {
    /// Returns whether the log's events are all that it has, so that they are replayed.
    pub(crate) fn is_replayed(&self, allow_left_over: bool) -> bool {
        Judgement::of(&self.read, allow_left_over).is_read()
    }

    /// Returns whether the log or the caller states the locality at which the TPM was started.
    pub(crate) fn is_locality_stated(&self, locality: Option<u8>) -> bool {
        KnownStart::of(self.read.entries(), locality).is_stated
    }
}

/// A log that was read, or what is printed of one that wasn't.
#[derive(Debug)]
pub(crate) enum Opened<'a> {
    /// It was read.
    Read(LogFile<'a>),
    /// It wasn't: its header has more algorithms than are allowed.
    Refused(Report),
}

/// Reads the log of these bytes as it is asked for.
///
/// # Errors
///
/// [`AllocError`] if an allocation fails.
pub(crate) fn open_log<'a>(
    name: &'a str,
    bytes: &'a [u8],
    reading: Reading,
) -> Result<Opened<'a>, AllocError> {
    let (last_entry, most) = (reading.last_entry, reading.max_rows);
    let whole = Log::read_with(bytes, last_entry, most as usize);
    if let Err(LogError::TooManyAlgorithms(rows)) = whole {
        let mut messages = String::new();
        push_many_algorithms(&mut messages, name, rows, most)?;
        return Ok(Opened::Refused(Report::unjudged(messages)));
    }
    let read = ReadLog::new(Log::new(bytes, last_entry))?;
    let fault = whole.err();
    Ok(Opened::Read(LogFile { name, read, fault }))
}

/// Returns whether a log can be judged, and the messages on that.
///
/// # Errors
///
/// [`AllocError`] if an allocation fails.
pub(crate) fn judge(
    file: &LogFile<'_>,
    allow_left_over: bool,
) -> Result<(Judgement, String), AllocError> {
    let judgement = Judgement::of(&file.read, allow_left_over);
    let mut messages = String::new();
    push_header_fault(&mut messages, file.name, header_fault(&file.read))?;
    push_last_entry(&mut messages, file)?;
    push_judgement(
        &mut messages,
        file.name,
        judgement,
        &Trailing::of(&file.read),
    )?;
    Ok((judgement, messages))
}

/// Appends the line of a log in which no event starts at the last entry that is asked for.
fn push_last_entry(messages: &mut String, file: &LogFile<'_>) -> Result<(), AllocError> {
    let last_entry = file.read.log().last_entry;
    match (last_entry, file.fault) {
        (LastEntry::At(offset), Some(LogError::LeftOver { .. })) => {
            let name = ShownName(file.name);
            fallible_writeln!(messages,
                "{name}: no event starts at offset {offset} (--last-entry)"
            )
        }
        _ => Ok(()),
    }
}

/// Returns the status of a run over a log with this judgement, if nothing else is wrong.
pub(crate) fn judged_status(judgement: Judgement) -> Status {
    match judgement {
        Judgement::Accepted => Status::Well,
        _ => Status::Unjudged,
    }
}
