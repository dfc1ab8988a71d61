// @generated from proved source. It is not edited.

use crate::support::fallible::*;

use crate::uefi_audits::verify::held::HeldPcr;
use uefi_formats::pcr::Bank;
use crate::support::alloc::AllocError;

/// Returns the banks of which a PCR is held, in the order of [`Bank::ALL`]: those that have to be
/// replayed.
///
/// # Errors
///
/// [`AllocError`] if an allocation fails.
pub fn held_banks(held: &[HeldPcr]) -> Result<Vec<Bank>, AllocError> {
    Bank::ALL
        .iter()
        .copied()
        .filter(|bank| is_held(held, *bank))
        .fallible_collect()
}

/// Returns whether a PCR of the bank is held.
fn is_held(held: &[HeldPcr], bank: Bank) -> bool {
    held.iter().any(|pcr| pcr.bank == bank)
}
