// @generated from proved source. It is not edited.

use crate::support::fallible::*;

use crate::audit_text::text::diff::change::bytes::byte_change;
use crate::audit_text::text::diff::change::lines::line_change;
use crate::audit_text::text::diff::change::words::word_change;
use crate::audit_text::text::events::parts::push_content;
use crate::audit_text::words::printed::printed_text;
use crate::audit_text::words::texts::{shown, shown_event, shown_version};
use crate::support::alloc::AllocError;
use uefi_formats::proto::tcg::content::EventText;
use crate::uefi_audits::content::{EventContent, TaggedData};
use crate::uefi_audits::diff::NumberedEntry;

/// Returns what changed in what the data of two events say; nothing if both say the same, or the
/// data of one aren't read.
pub(crate) fn said_change(
    old: &NumberedEntry<'_>,
    new: &NumberedEntry<'_>,
) -> Result<String, AllocError> {
    match (plain_value(&old.content), plain_value(&new.content)) {
        (Some(old), Some(new)) => value_change(old, new),
        _ => read_change(old, new),
    }
}

/// Returns what changed in texts, or in the lines of what the data say.
fn read_change(
    old: &NumberedEntry<'_>,
    new: &NumberedEntry<'_>,
) -> Result<String, AllocError> {
    let old_text = words_in(&old.content)?;
    let new_text = words_in(&new.content)?;
    match (&old_text, &new_text) {
        (Some(old), Some(new)) => word_change(old.as_str(), new.as_str()),
        _ => block_change(old, new),
    }
}

/// Returns what changed in the value of a variable.
fn value_change(old: &[u8], new: &[u8]) -> Result<String, AllocError> {
    let (zero, one) = ([0], [1]);
    if old == zero.as_slice() && new == one.as_slice() {
        return String::fallible_from_str("0 -> 1");
    }
    if old == one.as_slice() && new == zero.as_slice() {
        return String::fallible_from_str("1 -> 0");
    }
    print_change(old, new)
}

/// Returns what changed in the texts that bytes are, if all of both prints; else in the bytes.
fn print_change(old: &[u8], new: &[u8]) -> Result<String, AllocError> {
    let old_text = shown_printed(old)?;
    let new_text = shown_printed(new)?;
    match (&old_text, &new_text) {
        (Some(old), Some(new)) => word_change(old.as_str(), new.as_str()),
        _ => byte_change(old, new),
    }
}

/// Returns the text that bytes are, if all of it prints, as it is shown.
fn shown_printed(bytes: &[u8]) -> Result<Option<String>, AllocError> {
    match printed_text(bytes)? {
        Some(text) => Ok(Some(shown(text.as_str())?)),
        None => Ok(None),
    }
}

/// Returns the lines of what the data say that only one of two events has; nothing if the data of
/// one aren't read.
fn block_change(
    old: &NumberedEntry<'_>,
    new: &NumberedEntry<'_>,
) -> Result<String, AllocError> {
    if is_unread(&old.content) || is_unread(&new.content) {
        return Ok(String::new());
    }
    let old = lines_in(old)?;
    let new = lines_in(new)?;
    line_change(old.as_str(), new.as_str())
}

/// Returns the lines of what the data of an event say.
fn lines_in(found: &NumberedEntry<'_>) -> Result<String, AllocError> {
    let mut text = String::new();
    push_content(
        &mut text,
        &found.content,
        found.entry.event.event_data(),
    )?;
    Ok(text)
}

/// Returns the value of a variable, if it isn't read.
fn plain_value<'a>(content: &EventContent<'a>) -> Option<&'a [u8]> {
    match content {
        EventContent::Variable(variable) => Some(variable.data),
        _ => None,
    }
}

/// Returns the text or the version that data are, as it is shown.
fn words_in(content: &EventContent<'_>) -> Result<Option<String>, AllocError> {
    match content {
        EventContent::Text(said) => Ok(Some(shown(said)?)),
        EventContent::LoaderText(said) => Ok(Some(shown_event(said)?)),
        EventContent::CrtmVersion(version) => Ok(Some(shown_version(version)?)),
        EventContent::Tagged(tagged) => tagged_text(tagged),
        _ => Ok(None),
    }
}

/// Returns the text of a tagged event that is the only one, with no bytes after it, as it is shown.
fn tagged_text(tagged: &TaggedData<'_>) -> Result<Option<String>, AllocError> {
    let mut events = tagged.iter();
    match (events.next(), events.next()) {
        (Some(one), None) if tagged.rest().is_empty() => {
            Ok(Some(shown_event(&EventText::read(one.data))?))
        }
        _ => Ok(None),
    }
}

/// Returns whether data aren't read.
fn is_unread(content: &EventContent<'_>) -> bool {
    matches!(content, EventContent::Unread)
}
