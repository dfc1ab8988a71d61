// @generated from proved source. It is not edited.

use crate::support::fallible::*;

use crate::tcg_rows::log_inputs::{bytes_and_numbers, bytes_of, number, push_comma, push_hex};
use crate::tcg_rows::sweeps::changes;
use crate::tcg_rows::v2_logs::push_digest;
use crate::rows::quoted;
use crate::test_support::bytes;
use crate::uefi_tcg::{LastEntry, Log, LogEntry, LogError, LogEvent};

/// Returns the last entry that a text names: an offset, `empty`, or `unknown`.
fn last_entry_of(text: &str) -> Option<LastEntry> {
    Some(match text {
        "unknown" => LastEntry::Unknown,
        "empty" => LastEntry::Empty,
        offset => LastEntry::At(number(offset)?),
    })
}

/// Returns the bytes and the last entry of an input.
fn log_of(input: &str) -> Option<(Vec<u8>, LastEntry)> {
    let (digits, last_entry) = input.split_once(" ; ")?;
    Some((bytes_of(digits)?, last_entry_of(last_entry)?))
}

/// Returns how many events a log has, and how many bytes are padding and left over.
pub(crate) fn log(input: &str) -> Option<String> {
    let (bytes, last_entry) = log_of(input)?;
    let log = Log::new(bytes.as_slice(), last_entry);
    let ends = (log.padding().len(), log.left_over().len());
    fallible_format!("({}, {}, {})", log.entries().count(), ends.0, ends.1).ok()
}

/// Returns whether bytes after the last event of a log with this last entry are padding.
pub(crate) fn is_padded(input: &str) -> Option<String> {
    let (bytes, last_entry) = log_of(input)?;
    let is_padded = Log::new(&[], last_entry).is_padded(bytes.as_slice());
    fallible_format!("{is_padded}").ok()
}

/// Returns how many events a log has, or what the error is displayed as.
fn read_text(read: Result<Log<'_>, LogError>) -> Option<String> {
    match read {
        Ok(log) => fallible_format!("Ok({})", log.entries().count()).ok(),
        Err(error) => {
            let text = fallible_format!("{error}").ok()?;
            let text = quoted(text.as_str()).ok()?;
            fallible_format!("Err({text})").ok()
        }
    }
}

/// Returns how many events the log has that bytes are whole, or why they aren't one.
pub(crate) fn read(input: &str) -> Option<String> {
    let (bytes, last_entry) = log_of(input)?;
    read_text(Log::read(bytes.as_slice(), last_entry))
}

/// Returns a log of version 2 with one event, and with a header of this many rows of SHA-1.
fn log_of_rows(rows: u16) -> Option<Vec<u8>> {
    let start = "00000000 03000000 0000000000000000000000000000000000000000";
    let mut log = bytes(start).ok()?;
    let length = 29 + 4 * u32::from(rows);
    log.fallible_extend_from_slice(&length.to_le_bytes()).ok()?;
    log.fallible_extend_from_slice(b"Spec ID Event03\0\0\0\0\0\0\x02\0\x02")
        .ok()?;
    log.fallible_extend_from_slice(&u32::from(rows).to_le_bytes()).ok()?;
    for _ in 0..rows {
        log.fallible_extend_from_slice(&[4, 0, 20, 0]).ok()?;
    }
    let event = bytes_of("00 V2_PCR1")?;
    log.fallible_extend_from_slice(event.as_slice()).ok()?;
    Some(log)
}

/// Returns what reading a log returns whose header has this many rows of SHA-1, with a limit of rows
/// after it, or `-` if no limit is named.
pub(crate) fn read_rows(input: &str) -> Option<String> {
    let (rows, most) = input.split_once(" ; ")?;
    let log = log_of_rows(u16::try_from(number(rows)?).ok()?)?;
    let log = log.as_slice();
    let read = match most {
        "-" => Log::read(log, LastEntry::Unknown),
        _ => Log::read_with(log, LastEntry::Unknown, number(most)?),
    };
    read_text(read)
}

/// Appends an event, with its offset: its PCR, its type, its digests, each after its algorithm, and
/// its data.
fn push_entry(text: &mut String, entry: &LogEntry<'_>) -> Option<()> {
    let event = entry.event;
    let (pcr, event_type) = (event.pcr_index().0, event.event_type().0);
    fallible_write!(text, "({}, {pcr}, {event_type}, [", entry.offset).ok()?;
    for (algorithm, digest) in event.digests() {
        push_digest(text, algorithm, digest)?;
    }
    text.fallible_push_str("], ").ok()?;
    push_hex(text, event.event_data())?;
    text.fallible_push(')').ok()
}

/// Returns whether a log has a header, the size of its `UINTN`s, its events, and where the last of
/// them ends, with the count of bytes after it.
pub(crate) fn entries(input: &str) -> Option<String> {
    let (bytes, last_entry) = log_of(input)?;
    let log = Log::new(bytes.as_slice(), last_entry);
    let (has_header, size) = (log.header().is_some(), log.uintn_size());
    let mut text = fallible_format!("({has_header}, {size:?}, [").ok()?;
    let mut entries = log.entries();
    while let Some(entry) = entries.next() {
        push_comma(&mut text)?;
        push_entry(&mut text, &entry)?;
    }
    let end = (entries.offset(), entries.rest().len());
    fallible_write!(text, "], {end:?})").ok()?;
    Some(text)
}

/// Returns how many events are there before a fault in this many bytes of a log.
pub(crate) fn entries_before(input: &str) -> Option<String> {
    let (digits, length) = input.split_once(" ; ")?;
    let bytes = bytes_of(digits)?;
    let bytes = bytes.as_slice().get(..number(length)?)?;
    let count = Log::entries_before(bytes, LastEntry::Unknown).count();
    fallible_format!("{count}").ok()
}

/// Returns why bytes are no whole log, if they aren't.
fn error_of(bytes: &[u8], last_entry: LastEntry) -> Option<LogError> {
    Log::read(bytes, last_entry).err()
}

/// Returns the lengths of prefixes of a log, from one to another, at which the error is another than
/// one byte before, each with the error.
pub(crate) fn read_cuts(input: &str) -> Option<String> {
    let (bytes, first, last) = bytes_and_numbers(input)?;
    let (bytes, lengths) = (bytes.as_slice(), (first, last));
    let found = changes(bytes, lengths, LastEntry::Unknown, &error_of)?;
    fallible_format!("{:?}", found.as_slice()).ok()
}

/// Returns the event with an index in a log.
fn event_of(bytes: &[u8], index: usize) -> Option<LogEvent<'_>> {
    let entry = Log::new(bytes, LastEntry::Unknown).entries().nth(index)?;
    Some(entry.event)
}

/// Returns whether two events of one version are equal.
fn are_equal(one: &LogEvent<'_>, other: &LogEvent<'_>) -> Option<bool> {
    match (one, other) {
        (LogEvent::V1(one), LogEvent::V1(other)) => Some(*one == *other),
        (LogEvent::V2(one), LogEvent::V2(other)) => Some(*one == *other),
        _ => None,
    }
}

/// Returns whether the event with an index in a log is equal to that with another in a copy of it.
pub(crate) fn equal_events(input: &str) -> Option<String> {
    let (bytes, one, other) = bytes_and_numbers(input)?;
    let copy = Vec::fallible_from_slice(bytes.as_slice()).ok()?;
    let one = event_of(bytes.as_slice(), one)?;
    let other = event_of(copy.as_slice(), other)?;
    let are_equal = are_equal(&one, &other)?;
    fallible_format!("{are_equal}").ok()
}
