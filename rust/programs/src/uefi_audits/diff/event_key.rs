// @generated from proved source. It is not edited.

use crate::uefi_audits::diff::compared::ComparedParts;
use crate::uefi_audits::diff::names::{EventName, name_in};
use crate::uefi_audits::diff::pcr::NumberedEntry;
use core::cmp::Ordering;
use uefi_formats::proto::tcg::{AlgorithmId, LogEvent};

/// By what an event is sought among those of another log, beside its PCR and its type.
#[derive(Clone, Copy, Debug)]
pub(crate) enum KeyedBy {
    /// By its data.
    Data,
    /// By the name that its data have.
    Name,
    /// By its first digest of an algorithm.
    Digest(Option<AlgorithmId>),
}

impl KeyedBy {
    /// Returns by what events are sought first, if these parts are compared.
    pub(crate) fn first(parts: &ComparedParts<'_>) -> KeyedBy {
        if parts.with_data {
            KeyedBy::Data
        } else {
            KeyedBy::Digest(parts.algorithms.first().copied())
        }
    }

    /// Returns by what those are sought that are left then.
    pub(crate) fn second(parts: &ComparedParts<'_>) -> KeyedBy {
        if parts.with_data {
            KeyedBy::Name
        } else {
            KeyedBy::first(parts)
        }
    }
}

/// What an event is sought by among those of another log.
#[derive(Clone, Copy, Debug)]
pub(crate) struct EventKey<'a> {
    pub(crate) pcr_index: u32,
    pub(crate) event_type: u32,
    pub(crate) namespace: &'a [u8],
    pub(crate) name: &'a [u8],
}

impl<'a> EventKey<'a> {
    /// Returns the key of an event.
    pub(crate) fn new(found: &NumberedEntry<'a>, by: KeyedBy) -> EventKey<'a> {
        let event = &found.entry.event;
        let name = match by {
            KeyedBy::Data => EventName::new(&[], event.event_data()),
            KeyedBy::Name => name_in(&found.content, event.event_data()),
            KeyedBy::Digest(Some(algorithm)) => EventName::new(&[], first_digest(algorithm, event)),
            KeyedBy::Digest(None) => EventName::new(&[], &[]),
        };
        EventKey {
            pcr_index: event.pcr_index().0,
            event_type: event.event_type().0,
            namespace: name.namespace,
            name: name.name,
        }
    }
}

/// Returns an event's first digest of an algorithm; nothing if it has none.
fn first_digest<'a>(algorithm: AlgorithmId, event: &LogEvent<'a>) -> &'a [u8] {
    let mut digests = event.digests();
    while let Some((id, digest)) = digests.next() {
        if id == algorithm {
            return digest;
        }
    }
    &[]
}

impl<'a> PartialEq for EventKey<'a> {
    fn eq(&self, other: &Self) -> bool {
        compare(self, other).is_eq()
    }
}

impl<'a> Eq for EventKey<'a> {}

impl<'a> PartialOrd for EventKey<'a> {
    fn partial_cmp(&self, other: &Self) -> Option<Ordering> {
        Some(self.cmp(other))
    }
}

impl<'a> Ord for EventKey<'a> {
    fn cmp(&self, other: &Self) -> Ordering {
        compare(self, other)
    }
}

/// Compares two keys: by PCR, type, namespace and name.
fn compare(one: &EventKey<'_>, other: &EventKey<'_>) -> Ordering {
    let kinds = one.pcr_index.cmp(&other.pcr_index);
    let kinds = kinds.then(one.event_type.cmp(&other.event_type));
    let names = one.namespace.cmp(other.namespace);
    let names = names.then(one.name.cmp(other.name));
    kinds.then(names)
}

/// A key, and how many events before an event have it.
#[derive(Clone, Copy, Debug)]
pub(crate) struct RankedKey<'a> {
    pub(crate) key: EventKey<'a>,
    pub(crate) rank: usize,
}

impl<'a> PartialEq for RankedKey<'a> {
    fn eq(&self, other: &Self) -> bool {
        compare_ranked(self, other).is_eq()
    }
}

impl<'a> Eq for RankedKey<'a> {}

impl<'a> PartialOrd for RankedKey<'a> {
    fn partial_cmp(&self, other: &Self) -> Option<Ordering> {
        Some(self.cmp(other))
    }
}

impl<'a> Ord for RankedKey<'a> {
    fn cmp(&self, other: &Self) -> Ordering {
        compare_ranked(self, other)
    }
}

/// Compares two keys with their ranks.
fn compare_ranked(one: &RankedKey<'_>, other: &RankedKey<'_>) -> Ordering {
    compare(&one.key, &other.key).then(one.rank.cmp(&other.rank))
}
