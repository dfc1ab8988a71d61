// @generated from proved source. It is not edited.

use crate::support::fallible::*;

use crate::uefi_audits::verify::held::HeldPcr;
use uefi_formats::pcr::Bank;
use crate::support::alloc::AllocError;

/// A PCR, by its bank and its number.
#[derive(Clone, Copy, PartialEq, Eq, Debug)]
pub struct NamedPcr {
    /// Its bank.
    pub bank: Bank,
    /// Its number.
    pub pcr: u32,
}

/// Returns which PCRs these are.
///
/// # Errors
///
/// [`AllocError`] if an allocation fails.
pub fn named_pcrs(held: &[HeldPcr]) -> Result<Vec<NamedPcr>, AllocError> {
    held.iter()
        .map(|held| NamedPcr {
            bank: held.bank,
            pcr: held.pcr,
        })
        .fallible_collect()
}
