// @generated from proved source. It is not edited.

//! What is known of a log before it is replayed.

use crate::uefi_audits::algorithms::algorithms_in;
use crate::uefi_audits::known_start::KnownStart;
use crate::uefi_audits::trailing::Trailing;
use uefi_formats::pcr::ReadLog;
use crate::support::alloc::AllocError;

/// What is known of a log before it is replayed.
#[derive(Debug)]
pub struct LogFacts {
    /// How PCR 0 starts.
    pub start: KnownStart,
    /// The algorithms in the table of its header, each once, in ascending order.
    pub algorithms: Vec<u16>,
    /// What follows its last event.
    pub trailing: Trailing,
}

impl LogFacts {
    /// Returns what is known of a log, with the locality that the caller states.
    ///
    /// # Errors
    ///
    /// [`AllocError`] if an allocation fails.
    pub fn of(
        read: &ReadLog<'_>,
        locality: Option<u8>,
    ) -> Result<LogFacts, AllocError> {
        let algorithms = algorithms_in(read)?;
        Ok(LogFacts {
            start: KnownStart::of(read.entries(), locality),
            algorithms,
            trailing: Trailing::of(read),
        })
    }
}
