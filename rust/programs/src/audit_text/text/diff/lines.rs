// @generated from proved source. It is not edited.

use crate::support::fallible::*;

use crate::audit_text::ComparedLogs;
use crate::audit_text::text::diff::change::{digest_text, has_no_form, push_change};
use crate::audit_text::text::events::names::push_algorithm;
use crate::audit_text::words::{push_bytes, push_said};
use crate::support::alloc::AllocError;
use crate::uefi_audits::content::EventContent;
use crate::uefi_audits::diff::{EventChange, EventName, NumberedEntry, command_name, has_uncovered_name};
use uefi_formats::proto::tcg::{AlgorithmId, EventType, LogEvent};

/// Appends the line that names the algorithms whose digests are compared.
pub(crate) fn push_compared_line(
    text: &mut String,
    algorithms: &[AlgorithmId],
) -> Result<(), AllocError> {
    if algorithms.is_empty() {
        return text.fallible_push_str("compared: data alone, since no bank to compare is in both logs\n");
    }
    text.fallible_push_str("compared:")?;
    push_algorithms(text, algorithms)?;
    text.fallible_push_str("\n")
}

/// Appends the names of algorithms, each after a space.
fn push_algorithms(text: &mut String, algorithms: &[AlgorithmId]) -> Result<(), AllocError> {
    for algorithm in algorithms {
        text.fallible_push_str(" ")?;
        push_algorithm(text, *algorithm)?;
    }
    Ok(())
}

/// Appends the line of an event that differs from its counterpart.
pub(crate) fn push_changed_line(
    text: &mut String,
    logs: &ComparedLogs<'_>,
    change: &EventChange<'_>,
) -> Result<(), AllocError> {
    push_start(text, &change.old)?;
    push_name(text, change)?;
    text.fallible_push_str(": ")?;
    push_change(text, logs.algorithms, &change.old, &change.new)?;
    push_places(text, logs, change)
}

/// Appends where an event and its counterpart are.
fn push_places(
    text: &mut String,
    logs: &ComparedLogs<'_>,
    change: &EventChange<'_>,
) -> Result<(), AllocError> {
    text.fallible_push_str(" (")?;
    push_at(text, logs.old_name, &change.old)?;
    text.fallible_push_str(", ")?;
    push_at(text, logs.new_name, &change.new)?;
    text.fallible_push_str(")\n")
}

/// Appends the line of an event of the old log that the new one doesn't have.
pub(crate) fn push_only_line(
    text: &mut String,
    logs: &ComparedLogs<'_>,
    found: &NumberedEntry<'_>,
) -> Result<(), AllocError> {
    let new_name = logs.new_name;
    push_place(text, logs, found)?;
    fallible_writeln!(text, " isn't in {new_name}")
}

/// Appends the line of an event that comes earlier in the new log.
pub(crate) fn push_earlier_line(
    text: &mut String,
    logs: &ComparedLogs<'_>,
    change: &EventChange<'_>,
) -> Result<(), AllocError> {
    push_place(text, logs, &change.old)?;
    push_earlier(text, logs.new_name, &change.new)
}

/// Appends that an event comes earlier in the log of this name, and its index and offset there.
fn push_earlier(text: &mut String, name: &str, found: &NumberedEntry<'_>) -> Result<(), AllocError> {
    let (index, offset) = (found.index, found.entry.offset);
    fallible_writeln!(text,
        " comes earlier in {name}, as event {index} at offset {offset}"
    )
}

/// Appends what the line of an event of the old log begins with: its PCR and its type, what its data
/// say, its digests, if the data aren't what was measured, and where it is.
fn push_place(
    text: &mut String,
    logs: &ComparedLogs<'_>,
    found: &NumberedEntry<'_>,
) -> Result<(), AllocError> {
    push_start(text, found)?;
    push_words(text, found)?;
    push_digests(text, logs.algorithms, &found.entry.event)?;
    text.fallible_push_str(" (")?;
    push_at(text, logs.old_name, found)?;
    text.fallible_push_str(")")
}

/// Appends the PCR and the type of an event.
fn push_start(text: &mut String, found: &NumberedEntry<'_>) -> Result<(), AllocError> {
    let pcr = found.entry.event.pcr_index().0;
    fallible_write!(text, "PCR {pcr}: ")?;
    push_type(text, found.entry.event.event_type())
}

/// Appends the index and the offset of an event, and the name of its log.
fn push_at(text: &mut String, name: &str, found: &NumberedEntry<'_>) -> Result<(), AllocError> {
    let (index, offset) = (found.index, found.entry.offset);
    fallible_write!(text, "event {index} at offset {offset} of {name}")
}

/// Appends what data say, after a comma, and whether no digest covers it; nothing if they say
/// nothing.
fn push_words(text: &mut String, found: &NumberedEntry<'_>) -> Result<(), AllocError> {
    let mut words = String::new();
    push_said(&mut words, &found.content)?;
    if words.is_empty() {
        return Ok(());
    }
    fallible_write!(text, ", {words}")?;
    push_cover(text, found)
}

/// Appends whether no digest covers what the data say, or the name in them.
fn push_cover(text: &mut String, found: &NumberedEntry<'_>) -> Result<(), AllocError> {
    if has_no_form(&found.entry.event) {
        return text.fallible_push_str(", which no digest covers");
    }
    if has_uncovered_name(found) {
        return text.fallible_push_str(", whose name no digest covers");
    }
    Ok(())
}

/// Appends the digests of an event whose data aren't what was measured, each after a comma.
fn push_digests(
    text: &mut String,
    algorithms: &[AlgorithmId],
    event: &LogEvent<'_>,
) -> Result<(), AllocError> {
    if !has_no_form(event) {
        return Ok(());
    }
    for algorithm in algorithms {
        push_digest(text, *algorithm, event)?;
    }
    Ok(())
}

/// Appends the digests that an event has of an algorithm, after a comma.
fn push_digest(
    text: &mut String,
    algorithm: AlgorithmId,
    event: &LogEvent<'_>,
) -> Result<(), AllocError> {
    let digests = digest_text(algorithm, event)?;
    text.fallible_push_str(", ")?;
    push_algorithm(text, algorithm)?;
    text.fallible_push_str(digests.as_str())
}

/// Appends what an event that changed is named by, after a comma; nothing if it has no name.
fn push_name(text: &mut String, change: &EventChange<'_>) -> Result<(), AllocError> {
    let mut words = String::new();
    push_label(&mut words, &change.old, &change.new)?;
    if words.is_empty() {
        return Ok(());
    }
    fallible_write!(text, ", {words}")
}

/// Appends what the data of an event say, if those of its counterpart are the same, or else their
/// name.
fn push_label(
    text: &mut String,
    old: &NumberedEntry<'_>,
    new: &NumberedEntry<'_>,
) -> Result<(), AllocError> {
    let bytes = old.entry.event.event_data();
    if bytes == new.entry.event.event_data() {
        return push_said(text, &old.content);
    }
    push_name_words(text, &old.content, bytes)
}

/// Appends the name of a variable, the path of an image, a tag, or what GRUB writes before a command
/// and the command's first word.
fn push_name_words(
    text: &mut String,
    content: &EventContent<'_>,
    bytes: &[u8],
) -> Result<(), AllocError> {
    match content {
        EventContent::Variable(_)
        | EventContent::BootOption(..)
        | EventContent::BootOrder(..)
        | EventContent::SignatureLists(..)
        | EventContent::Signature(..)
        | EventContent::Image(..)
        | EventContent::Tagged(_) => push_said(text, content),
        EventContent::LoaderText(_) => push_command(text, command_name(bytes)),
        _ => Ok(()),
    }
}

/// Appends the word that GRUB writes before a command, and the command's first word.
fn push_command(text: &mut String, command: EventName<'_>) -> Result<(), AllocError> {
    push_bytes(text, command.namespace)?;
    if command.name.is_empty() {
        return Ok(());
    }
    text.fallible_push_str(": ")?;
    push_bytes(text, command.name)
}

/// Appends the name of a type, or its number.
fn push_type(text: &mut String, event_type: EventType) -> Result<(), AllocError> {
    match event_type.name() {
        Some(name) => text.fallible_push_str(name),
        None => {
            let number = event_type.0;
            fallible_write!(text, "type 0x{:x}", number)
        }
    }
}
