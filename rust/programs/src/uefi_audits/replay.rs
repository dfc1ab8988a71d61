// @generated from proved source. It is not edited.

//! The PCRs that an event log leads to, by bank: computed once, and printed, written as JSON or
//! compared.

use crate::support::fallible::*;

use uefi_formats::pcr::entries::{is_active, replay};
use uefi_formats::pcr::{Bank, BankPcrs, Start};
use crate::support::alloc::AllocError;
use uefi_formats::proto::tcg::LogEntry;

/// Returns the banks that are asked for: one, or without one each that is active in these events, in
/// the order of [`Bank::ALL`].
///
/// # Errors
///
/// [`AllocError`] if an allocation fails.
pub fn asked_banks(
    entries: &[LogEntry<'_>],
    bank: Option<Bank>,
) -> Result<Vec<Bank>, AllocError> {
    match bank {
        Some(bank) => Vec::fallible_from_slice(&[bank]),
        None => active_banks(entries),
    }
}

/// Returns the banks that are active in these events.
fn active_banks(
    entries: &[LogEntry<'_>],
) -> Result<Vec<Bank>, AllocError> {
    Bank::ALL
        .iter()
        .copied()
        .filter(|bank| is_active(entries, *bank))
        .fallible_collect()
}

/// Returns what these events leave in the PCRs of each of these banks, in a TPM that was started so.
///
/// # Errors
///
/// [`AllocError`] if an allocation fails.
pub fn replay_banks(
    entries: &[LogEntry<'_>],
    banks: &[Bank],
    start: &Start,
) -> Result<Vec<BankPcrs>, AllocError> {
    let mut found = Vec::new();
    for bank in banks {
        found.fallible_push(replay_bank(entries, *bank, start))?;
    }
    Ok(found)
}

/// Returns what the PCRs of banks hold in a TPM that was started so, by what they hold in one that was
/// started otherwise: PCR 0 alone is replayed.
///
/// # Errors
///
/// [`AllocError`] if an allocation fails.
pub(crate) fn restart_banks(
    entries: &[LogEntry<'_>],
    replays: &[BankPcrs],
    start: &Start,
) -> Result<Vec<BankPcrs>, AllocError> {
    let mut found = Vec::new();
    for replay in replays {
        found.fallible_push(replay.restarted(entries, start))?;
    }
    Ok(found)
}

/// Returns what these events leave in the PCRs of a bank.
fn replay_bank(entries: &[LogEntry<'_>], bank: Bank, start: &Start) -> BankPcrs {
    BankPcrs {
        bank,
        pcrs: replay(entries, bank, start),
    }
}
