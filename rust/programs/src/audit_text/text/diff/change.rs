// @generated from proved source. It is not edited.

use self::bytes::byte_change;
use self::digests::digest_changes;
pub(crate) use self::digests::digest_text;
use self::said::said_change;
use crate::support::alloc::AllocError;
use crate::uefi_audits::check::forms_of;
use crate::uefi_audits::diff::NumberedEntry;
use uefi_formats::proto::tcg::{AlgorithmId, LogEvent};

mod bytes;
mod digests;
mod lines;
mod prefix;
mod said;
mod sides;
mod words;

/// Appends what changed between an event of a log and its counterpart in another one, on one line.
/// Nothing is appended if the data are the same, and the digests of these algorithms are too.
///
///
/// | data | what is compared |
/// |---|---|
/// | a variable whose value isn't read | the value: 0 and 1 in one byte, its words, if all of it prints, or its bytes |
/// | a text, a version, the only tagged event | its words, with `..` for those before the first that differs |
/// | other data that are read | the lines of an event's block for them, without their indent |
/// | data that aren't read, or if nothing differs in that | the bytes of the data |
///
/// Bytes are in hex from the first that differs, at most 32 of an event, and how many more there are:
/// `..(23 more)`. If an event has nothing that the other one lacks, its side is `nothing`. The lines are
/// those of [`push_event_blocks`](crate::audit_text::text::push_event_blocks).
///
/// The digests follow if the data don't account for them: the data are the same, or the types of
/// both events have no form ([`forms_of`]), so that no digest covers what changed. They are in hex,
/// or `none` if an event has no digest of the algorithm.
///
/// # Errors
///
/// [`AllocError`] if an allocation fails. The text may have grown then.
pub fn push_change(
    text: &mut String,
    algorithms: &[AlgorithmId],
    old: &NumberedEntry<'_>,
    new: &NumberedEntry<'_>,
) -> Result<(), AllocError> {
    let words = data_words(old, new)?;
    let digests = digest_words(algorithms, old, new)?;
    push_with_digests(text, words.as_str(), digests.as_str())
}

/// Appends what changed in the data and in the digests, with `; ` between them.
fn push_with_digests(text: &mut String, words: &str, digests: &str) -> Result<(), AllocError> {
    if words.is_empty() || digests.is_empty() {
        return fallible_write!(text, "{words}{digests}");
    }
    fallible_write!(text, "{words}; {digests}")
}

/// Returns what changed in the data, and whether no digest covers it; nothing if they are the same.
fn data_words(
    old: &NumberedEntry<'_>,
    new: &NumberedEntry<'_>,
) -> Result<String, AllocError> {
    if old.entry.event.event_data() == new.entry.event.event_data() {
        return Ok(String::new());
    }
    let words = data_change(old, new)?;
    if !are_uncovered(old, new) {
        return Ok(words);
    }
    fallible_format!("{words} (no digest covers this)")
}

/// Returns what changed in what the data say, or the bytes from the first that differs.
fn data_change(
    old: &NumberedEntry<'_>,
    new: &NumberedEntry<'_>,
) -> Result<String, AllocError> {
    let said = said_change(old, new)?;
    if !said.is_empty() {
        return Ok(said);
    }
    let (old, new) = (old.entry.event.event_data(), new.entry.event.event_data());
    byte_change(old, new)
}

/// Returns what changed in the digests, if the data don't account for it.
fn digest_words(
    algorithms: &[AlgorithmId],
    old: &NumberedEntry<'_>,
    new: &NumberedEntry<'_>,
) -> Result<String, AllocError> {
    let same = old.entry.event.event_data() == new.entry.event.event_data();
    if same || are_uncovered(old, new) {
        return digest_changes(algorithms, &old.entry.event, &new.entry.event);
    }
    Ok(String::new())
}

/// Returns whether the log has nothing that two events measure, by their types.
fn are_uncovered(old: &NumberedEntry<'_>, new: &NumberedEntry<'_>) -> bool {
    has_no_form(&old.entry.event) && has_no_form(&new.entry.event)
}

/// Returns whether the log has nothing that an event measures, by its type.
pub(crate) fn has_no_form(event: &LogEvent<'_>) -> bool {
    forms_of(event.event_type()).is_empty()
}
