// @generated from proved source. It is not edited.

//! What the events of a log lead to, with what is to be said of it.

use crate::support::fallible::*;

use crate::uefi_audits::facts::LogFacts;
use crate::uefi_audits::ignored::{IgnoredEvent, ignored_events};
use crate::uefi_audits::naming::bank_of;
use crate::uefi_audits::replay::{asked_banks, replay_banks};
use uefi_formats::pcr::entries::is_active;
use uefi_formats::pcr::{Bank, BankPcrs};
use crate::support::alloc::AllocError;
use uefi_formats::proto::tcg::{AlgorithmId, LogEntry};

/// What the events of a log lead to.
#[derive(Debug)]
pub struct LogReplay {
    /// The PCRs of the banks that were asked for.
    pub banks: Vec<BankPcrs>,
    /// The banks of which no event has a digest, among those in the table of the log's header; or the bank
    /// that was asked for, if no event has a digest of it.
    pub inactive: Vec<Bank>,
    /// The algorithms in the table whose banks can't be replayed; none, if one bank was asked for.
    pub unsupported: Vec<u16>,
    /// The events that have no effect and should have.
    pub ignored: Vec<IgnoredEvent>,
}

impl LogReplay {
    /// Returns what these events lead to in a bank, or in each that is active, by what is known of their
    /// log.
    ///
    /// # Errors
    ///
    /// [`AllocError`] if an allocation fails.
    pub fn of(
        entries: &[LogEntry<'_>],
        facts: &LogFacts,
        bank: Option<Bank>,
    ) -> Result<LogReplay, AllocError> {
        let asked = asked_banks(entries, bank)?;
        let algorithms = facts.algorithms.as_slice();
        let noted = noted_banks(algorithms, bank)?;
        Ok(LogReplay {
            banks: replay_banks(entries, asked.as_slice(), &facts.start.start)?,
            inactive: inactive_banks(entries, noted.as_slice())?,
            unsupported: unsupported_for(algorithms, bank)?,
            ignored: ignored_events(entries)?,
        })
    }

    /// Returns whether no bank was replayed, or a PCR of one is undetermined.
    pub fn is_undetermined(&self) -> bool {
        let banks = self.banks.as_slice();
        banks.is_empty() || banks.iter().any(|bank| bank.has_undetermined())
    }
}

/// Returns those of these banks of which no event has a digest.
///
/// # Errors
///
/// [`AllocError`] if an allocation fails.
pub fn inactive_banks(
    entries: &[LogEntry<'_>],
    banks: &[Bank],
) -> Result<Vec<Bank>, AllocError> {
    banks
        .iter()
        .copied()
        .filter(|bank| !is_active(entries, *bank))
        .fallible_collect()
}

/// Returns the banks that are looked at: the one that is asked for, or those of these algorithms.
fn noted_banks(
    algorithms: &[u16],
    bank: Option<Bank>,
) -> Result<Vec<Bank>, AllocError> {
    match bank {
        Some(bank) => Vec::fallible_from_slice(&[bank]),
        None => banks_among(algorithms),
    }
}

/// Returns the banks of these algorithms that can be replayed.
fn banks_among(algorithms: &[u16]) -> Result<Vec<Bank>, AllocError> {
    Bank::ALL
        .iter()
        .copied()
        .filter(|bank| algorithms.contains(&bank.algorithm().0))
        .fallible_collect()
}

/// Returns the algorithms whose banks can't be replayed; none, if one bank is asked for.
fn unsupported_for(
    algorithms: &[u16],
    bank: Option<Bank>,
) -> Result<Vec<u16>, AllocError> {
    match bank {
        Some(_) => Ok(Vec::new()),
        None => unsupported_among(algorithms),
    }
}

/// Returns which of these algorithms have banks that can't be replayed.
fn unsupported_among(algorithms: &[u16]) -> Result<Vec<u16>, AllocError> {
    algorithms
        .iter()
        .copied()
        .filter(|algorithm| bank_of(AlgorithmId(*algorithm)).is_none())
        .fallible_collect()
}
