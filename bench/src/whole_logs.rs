//! Sums over whole logs, a crate of its own: a compiler copies the reader of an event into the one
//! caller that a crate has, and calls it where there are several.

#[allow(dead_code, reason = "the driver reads the other fields")]
#[path = "readers/log2.rs"]
mod log2;

use log2::{Events, Header};
use uefi_formats::proto::tcg::{LastEntry, Log};

fn sum(numbers: impl IntoIterator<Item = u64>) -> u64 {
    numbers.into_iter().fold(0, u64::wrapping_add)
}

/// The sum over a log of version 2 that is whole, whose events are read once. 0 for another log.
pub fn plain_sum(bytes: &[u8]) -> u64 {
    let last_entry = bytes.len();
    let Some(Header { rows, event_end: offset, .. }) = Header::read(bytes, last_entry) else {
        return 0;
    };
    let mut events = Events { bytes, rows, last_entry, offset };
    let total = sum(events.by_ref().map(|it| {
        sum([it.pcr_index.into(), it.event_type.into(), it.data.len() as u64])
    }));
    let rest = &bytes[events.offset..];
    if rest.iter().all(|it| *it == 0) || rest.iter().all(|it| *it == 0xff) { total } else { 0 }
}

/// The same by the package: [`Log::read`], and then the entries.
pub fn package_sum(bytes: &[u8]) -> u64 {
    Log::read(bytes, LastEntry::Unknown).map_or(0, |log| {
        sum(log.entries().map(|it| {
            let numbers = [it.event.pcr_index().0, it.event.event_type().0].map(u64::from);
            sum(numbers).wrapping_add(it.event.event_data().len() as u64)
        }))
    })
}
