// @generated from proved source. It is not edited.

//! How PCR 0 starts, and who says so.

use uefi_formats::pcr::Start;
use uefi_formats::pcr::entries::{start_of, startup_locality};
use uefi_formats::proto::tcg::LogEntry;

/// How PCR 0 starts, and whether the log or the caller says so.
#[derive(Clone, Copy, PartialEq, Eq, Debug)]
pub struct KnownStart {
    /// How PCR 0 starts.
    pub start: Start,
    /// Whether the log or the caller states the locality.
    pub is_stated: bool,
}

impl KnownStart {
    /// Returns how PCR 0 starts: at the locality that the caller states, or else as these events say, or
    /// at locality 0 if they say nothing.
    pub fn of(entries: &[LogEntry<'_>], locality: Option<u8>) -> KnownStart {
        match locality {
            Some(locality) => KnownStart {
                start: Start::at(locality),
                is_stated: true,
            },
            None => KnownStart {
                start: start_of(entries),
                is_stated: startup_locality(entries).is_some(),
            },
        }
    }

    /// Returns that PCR 0 starts at a locality that nobody states.
    pub fn assumed(locality: u8) -> KnownStart {
        KnownStart {
            start: Start::at(locality),
            is_stated: false,
        }
    }
}
