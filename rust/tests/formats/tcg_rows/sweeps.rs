// @generated from proved source. It is not edited.

//! What holds of every prefix of a log, and of every last entry.

use crate::support::fallible::*;

use crate::tcg_rows::log_inputs::{bytes_and_numbers, number};
use crate::tcg_rows::v2_logs::events_from;
use core::fmt;
use crate::uefi_tcg::v2::{AlgorithmDigestSizes, EventLogHeader, EventLogIter, PcrEvent, Start};
use crate::uefi_tcg::{v1, v2};

/// Returns the lengths of prefixes of bytes, from one to another, at which a function returns
/// something else for a last entry than one byte before, each with that.
pub(crate) fn changes<T, N, F>(
    bytes: &[u8],
    lengths: (usize, usize),
    last_entry: N,
    read: &F,
) -> Option<Vec<(usize, T)>>
where
    T: PartialEq + Copy,
    N: Copy,
    F: Fn(&[u8], N) -> T,
{
    let (first, last) = lengths;
    let mut changes = Vec::new();
    let mut before = None;
    for length in first..=last {
        let now = read(bytes.get(..length)?, last_entry);
        if before != Some(now) {
            changes.fallible_push((length, now)).ok()?;
        }
        before = Some(now);
    }
    Some(changes)
}

/// Returns these lengths of all prefixes for a last entry, and the same for each later one up to
/// another.
fn changes_for<T, F>(input: &str, read: &F) -> Option<String>
where
    T: PartialEq + Copy + fmt::Debug,
    F: Fn(&[u8], usize) -> T,
{
    let (bytes, first, last) = bytes_and_numbers(input)?;
    let (bytes, lengths) = (bytes.as_slice(), (0, bytes.len()));
    let found = changes(bytes, lengths, first, read)?;
    for last_entry in first..=last {
        let others = changes(bytes, lengths, last_entry, read)?;
        if others.as_slice() != found.as_slice() {
            return fallible_format!("others for the last entry {last_entry}").ok();
        }
    }
    fallible_format!("{:?}", found.as_slice()).ok()
}

/// Returns how many events a log of version 1 has.
fn count_v1(bytes: &[u8], last_entry: usize) -> usize {
    let log = v1::EventLog::new(Some(bytes), Some(last_entry), false);
    log.iter().count()
}

/// Returns whether a log of version 2 has a header, and how many events it has from either start.
fn counts_v2(bytes: &[u8], last_entry: usize) -> (bool, usize, usize) {
    let log = v2::EventLog::new(Some(bytes), Some(last_entry), false);
    let after_event = log.iter_after_header_event().count();
    (log.header().is_some(), log.iter().count(), after_event)
}

/// Returns, for each last entry from one to another, the lengths of prefixes of a log of version 1 at
/// which the count of events changes.
pub(crate) fn cuts_v1(input: &str) -> Option<String> {
    changes_for(input, &count_v1)
}

/// Returns the same of a log of version 2: whether it has a header, and the counts from either start.
pub(crate) fn cuts_v2(input: &str) -> Option<String> {
    changes_for(input, &counts_v2)
}

/// Returns the last entries, from one to another, at which that changes of the first bytes of a log,
/// whose count comes first.
pub(crate) fn last_entries_v2(input: &str) -> Option<String> {
    let (length, input) = input.split_once(" ; ")?;
    let (bytes, first, last) = bytes_and_numbers(input)?;
    let bytes = bytes.as_slice().get(..number(length)?)?;
    let mut changes = Vec::new();
    let mut before = None;
    for last_entry in first..=last {
        let now = counts_v2(bytes, last_entry);
        if before != Some(now) {
            changes.fallible_push((last_entry, now)).ok()?;
        }
        before = Some(now);
    }
    fallible_format!("{:?}", changes.as_slice()).ok()
}

/// Returns the first last entry, from one to another, of which a condition doesn't hold of the bytes.
fn first_without<F>(input: &str, is_so: F) -> Option<String>
where
    F: Fn(&[u8], usize) -> bool,
{
    let (bytes, first, last) = bytes_and_numbers(input)?;
    let bytes = bytes.as_slice();
    for last_entry in first..=last {
        if !is_so(bytes, last_entry) {
            return fallible_format!("Some({last_entry})").ok();
        }
    }
    fallible_format!("None").ok()
}

/// Returns the first last entry for which the events that start at 0, and then at each event's end,
/// aren't those of the log of version 1.
pub(crate) fn steps_v1(input: &str) -> Option<String> {
    first_without(input, are_events_v1)
}

/// Returns the same of version 2, from both starts.
pub(crate) fn steps_v2(input: &str) -> Option<String> {
    first_without(input, are_events_v2)
}

/// Returns the first last entry for which the log of version 1 has too many events, or loses one
/// with a later last entry that it had by its own.
pub(crate) fn growth_v1(input: &str) -> Option<String> {
    first_without(input, grows_v1)
}

/// Returns the same of version 2, from both starts.
pub(crate) fn growth_v2(input: &str) -> Option<String> {
    first_without(input, grows_v2)
}

/// Returns whether the events that start at 0, and then at each event's end, are those of the log.
fn are_events_v1(bytes: &[u8], last_entry: usize) -> bool {
    let mut offset = 0usize;
    for event in v1::EventLog::new(Some(bytes), Some(last_entry), false).iter() {
        if v1::event_starting_at(bytes, offset, last_entry) != Some(event) {
            return false;
        }
        offset = offset.saturating_add(event.as_bytes().len());
    }
    v1::event_starting_at(bytes, offset, last_entry).is_none()
}

/// Returns whether the digests of the event are those that its bytes encode under the table, one by
/// one.
fn are_first_digests(event: &PcrEvent<'_>, sizes: &AlgorithmDigestSizes<'_>) -> bool {
    let digests = event.digests();
    let mut rest = digests.as_bytes();
    let mut count = 0usize;
    for digest in digests {
        let Some((first, others)) = sizes.first_digest(rest) else {
            return false;
        };
        if first != digest {
            return false;
        }
        rest = others;
        count = count.saturating_add(1);
    }
    rest.is_empty() && count == digests.len() && digests.is_empty() == (count == 0)
}

/// Returns whether all parts of two events are the same.
fn is_same_event(event: &PcrEvent<'_>, other: &PcrEvent<'_>) -> bool {
    event.pcr_index() == other.pcr_index()
        && event.event_type() == other.event_type()
        && event.digests().as_bytes() == other.digests().as_bytes()
        && event.event_data() == other.event_data()
        && event.as_bytes() == other.as_bytes()
}

/// Returns whether the events that start at the offset, and then at each event's end, are these.
fn are_steps<'a>(
    events: EventLogIter<'_>,
    sizes: &AlgorithmDigestSizes<'a>,
    bytes: &'a [u8],
    start: usize,
    last_entry: usize,
) -> bool {
    let mut offset = start;
    for event in events {
        let Some(step) = v2::event_starting_at(sizes, bytes, offset, last_entry) else {
            return false;
        };
        if !is_same_event(&event, &step) || !are_first_digests(&step, sizes) {
            return false;
        }
        offset = offset.saturating_add(step.as_bytes().len());
    }
    v2::event_starting_at(sizes, bytes, offset, last_entry).is_none()
}

/// Returns whether the steps from either start are the events of the log, if it has a header.
fn are_events_v2(bytes: &[u8], last_entry: usize) -> bool {
    let log = v2::EventLog::new(Some(bytes), Some(last_entry), false);
    let Some(header) = log.header() else {
        return log.iter().next().is_none();
    };
    let Some(sizes) = AlgorithmDigestSizes::from_rows(header.algorithm_digest_sizes().rows()) else {
        return false;
    };
    let after_event = log.iter_after_header_event();
    are_steps(
        log.iter(),
        &sizes,
        bytes,
        header.size_in_bytes(),
        last_entry,
    ) && are_steps(after_event, &sizes, bytes, header.event_size(), last_entry)
}

/// Returns whether the log with the later last entry begins with the earlier one's events that end
/// by its last entry.
fn begins_with_v1(bytes: &[u8], last_entry: usize, later: usize) -> bool {
    let earlier = v1::EventLog::new(Some(bytes), Some(last_entry), false);
    let mut grown = v1::EventLog::new(Some(bytes), Some(later), false).iter();
    let mut end = 0usize;
    for event in earlier.iter() {
        end = end.saturating_add(event.as_bytes().len());
        if end <= last_entry && grown.next() != Some(event) {
            return false;
        }
    }
    true
}

/// Returns whether the log has no more than an event for each 32 bytes, and one, and keeps its events
/// with each later last entry up to the end of the bytes.
fn grows_v1(bytes: &[u8], last_entry: usize) -> bool {
    let mut later = last_entry..=bytes.len();
    count_v1(bytes, last_entry) <= last_entry / 32 + 1
        && later.all(|later| begins_with_v1(bytes, last_entry, later))
}

/// Returns how many events a log can have at most from an offset on, since each has 16 bytes at
/// least.
fn bound(start: usize, last_entry: usize) -> usize {
    match last_entry.checked_sub(start) {
        Some(room) => room / 16 + 1,
        None => 0,
    }
}

/// Returns the offset of a start.
fn offset_of(header: &EventLogHeader<'_>, start: Start) -> usize {
    match start {
        Start::AfterHeader => header.size_in_bytes(),
        Start::AfterEvent => header.event_size(),
    }
}

/// Returns whether the log has no more events than that from either start, of which the first is at
/// 61 at the earliest.
fn is_bounded(bytes: &[u8], last_entry: usize) -> bool {
    let log = v2::EventLog::new(Some(bytes), Some(last_entry), false);
    let after_event = match log.header() {
        Some(header) => bound(header.event_size(), last_entry),
        None => 0,
    };
    log.iter().count() <= bound(61, last_entry)
        && log.iter_after_header_event().count() <= after_event
}

/// Returns whether the log with the later last entry begins with the earlier one's events that end
/// by its last entry.
fn begins_with_v2(bytes: &[u8], last_entry: usize, later: usize, start: Start) -> bool {
    let earlier = v2::EventLog::new(Some(bytes), Some(last_entry), false);
    let Some(header) = earlier.header() else {
        return events_from(&earlier, start).next().is_none();
    };
    let later = v2::EventLog::new(Some(bytes), Some(later), false);
    let mut grown = events_from(&later, start);
    let mut end = offset_of(&header, start);
    for event in events_from(&earlier, start) {
        end = end.saturating_add(event.as_bytes().len());
        if end <= last_entry && grown.next() != Some(event) {
            return false;
        }
    }
    true
}

/// Returns whether that holds from both starts.
fn begins_with_both(bytes: &[u8], last_entry: usize, later: usize) -> bool {
    begins_with_v2(bytes, last_entry, later, Start::AfterHeader)
        && begins_with_v2(bytes, last_entry, later, Start::AfterEvent)
}

/// Returns whether the log is bounded, and keeps its events with each later last entry up to the end
/// of the bytes, and with the last one.
fn grows_v2(bytes: &[u8], last_entry: usize) -> bool {
    let mut later = last_entry..=bytes.len();
    is_bounded(bytes, last_entry)
        && later.all(|later| begins_with_both(bytes, last_entry, later))
        && begins_with_both(bytes, last_entry, usize::MAX)
}
