// @generated from proved source. It is not edited.

use crate::support::fallible::*;

use crate::tcg_rows::log_inputs::{bytes_and_numbers, log_input, push_comma, push_hex};
use crate::uefi_tcg::v1::{EventLog, PcrEvent, event_starting_at};

/// Appends an event: where it is in the log's bytes, its PCR, its type, its digest and its data.
pub(crate) fn push_event(text: &mut String, start: usize, event: &PcrEvent<'_>) -> Option<()> {
    let end = start.saturating_add(event.as_bytes().len());
    let (pcr, event_type) = (event.pcr_index().0, event.event_type().0);
    fallible_write!(text, "({start}..{end}, {pcr}, {event_type}, ").ok()?;
    push_hex(text, event.digest().as_slice())?;
    text.fallible_push_str(", ").ok()?;
    push_hex(text, event.event_data())?;
    text.fallible_push(')').ok()
}

/// Returns the events of a log, after which its iterator stays ended.
pub(crate) fn log(input: &str) -> Option<String> {
    let input = log_input(input)?;
    let bytes = input.bytes().unwrap_or(&[]);
    let mut events = EventLog::new(input.bytes(), input.last_entry, false).iter();
    let mut text = fallible_format!("[").ok()?;
    let mut start = events.offset();
    while let Some(event) = events.next() {
        if bytes.get(start..events.offset()) != Some(event.as_bytes()) {
            return fallible_format!("the bytes of another event at {start}").ok();
        }
        push_comma(&mut text)?;
        push_event(&mut text, start, &event)?;
        start = events.offset();
    }
    if events.next().is_some() || events.offset() != start {
        return fallible_format!("the iterator goes on").ok();
    }
    text.fallible_push(']').ok()?;
    Some(text)
}

/// Returns the event with an index in a log of these bytes.
pub(crate) fn event_at(bytes: &[u8], index: usize) -> Option<String> {
    let mut events = EventLog::new(Some(bytes), Some(usize::MAX), false).iter();
    for _ in 0..index {
        events.next();
    }
    let start = events.offset();
    let mut text = String::new();
    push_event(&mut text, start, &events.next()?)?;
    Some(text)
}

/// Returns the offset of a log's iterator and the length of its rest, before the first event.
pub(crate) fn rest(input: &str) -> Option<String> {
    let input = log_input(input)?;
    let events = EventLog::new(input.bytes(), input.last_entry, false).iter();
    let rest = (events.offset(), events.rest().len());
    fallible_format!("{rest:?}").ok()
}

/// Returns the event that starts at an offset, if it keeps to the last entry.
pub(crate) fn step(input: &str) -> Option<String> {
    let (bytes, offset, last_entry) = bytes_and_numbers(input)?;
    let Some(event) = event_starting_at(bytes.as_slice(), offset, last_entry) else {
        return fallible_format!("None").ok();
    };
    let mut text = String::new();
    push_event(&mut text, offset, &event)?;
    Some(text)
}
