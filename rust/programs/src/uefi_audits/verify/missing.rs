// @generated from proved source. It is not edited.

use crate::support::fallible::*;

use crate::uefi_audits::verify::named::NamedPcr;
use crate::uefi_audits::verify::selection::PcrSelection;
use uefi_formats::pcr::{Bank, PCR_COUNT};
use crate::support::alloc::AllocError;

/// Returns the PCRs that are asked for and not among those stated, by banks in the order of
/// [`Bank::ALL`]. Without selections none is missing.
///
/// A PCR that a selection selects is asked for in the bank that the selection names. If it names none,
/// whoever states the PCRs chooses the banks: it is asked for in each bank of which a PCR is stated.
///
/// # Errors
///
/// [`AllocError`] if an allocation fails.
pub fn missing_pcrs(
    stated: &[NamedPcr],
    selections: &[PcrSelection],
) -> Result<Vec<NamedPcr>, AllocError> {
    let mut missing = Vec::new();
    for bank in &Bank::ALL {
        push_missing(&mut missing, stated, selections, *bank)?;
    }
    Ok(missing)
}

/// Returns the PCRs that selections ask for, each of which names a bank, by banks in the order of
/// [`Bank::ALL`].
///
/// # Errors
///
/// [`AllocError`] if an allocation fails.
pub fn asked_pcrs(
    selections: &[PcrSelection],
) -> Result<Vec<NamedPcr>, AllocError> {
    missing_pcrs(&[], selections)
}

/// Appends the PCRs of a bank that are asked for and not stated.
fn push_missing(
    missing: &mut Vec<NamedPcr>,
    stated: &[NamedPcr],
    selections: &[PcrSelection],
    bank: Bank,
) -> Result<(), AllocError> {
    for pcr in 0..PCR_COUNT as u32 {
        if is_missing(selections, stated, bank, pcr) {
            missing.fallible_push(NamedPcr { bank, pcr })?;
        }
    }
    Ok(())
}

/// Returns whether a PCR is asked for and not stated.
fn is_missing(selections: &[PcrSelection], stated: &[NamedPcr], bank: Bank, pcr: u32) -> bool {
    is_asked(selections, stated, bank, pcr) && !is_among(stated, bank, pcr)
}

/// Returns whether a PCR is asked for by one of the selections.
fn is_asked(selections: &[PcrSelection], stated: &[NamedPcr], bank: Bank, pcr: u32) -> bool {
    selections.iter().any(|it| {
        it.is_selected(bank, pcr) && (it.bank().is_some() || is_stated(stated, bank))
    })
}

/// Returns whether a PCR of a bank is among these.
fn is_among(stated: &[NamedPcr], bank: Bank, pcr: u32) -> bool {
    stated.iter().any(|it| it.bank == bank && it.pcr == pcr)
}

/// Returns whether a PCR of the bank is among these.
fn is_stated(stated: &[NamedPcr], bank: Bank) -> bool {
    stated.iter().any(|it| it.bank == bank)
}
