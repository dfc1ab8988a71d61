// @generated from proved source. It is not edited.

use crate::support::fallible::*;

use crate::uefi_audits::naming::bank_of;
use crate::uefi_audits::verify::named::NamedPcr;
use uefi_formats::pcr::Bank;
use crate::support::alloc::AllocError;
use uefi_formats::pcr::{PcrSelection, Quote};

/// Returns the PCRs that a quote covers, in its order, but for those of banks that can't be replayed.
///
/// # Errors
///
/// [`AllocError`] if an allocation fails.
pub fn covered_pcrs(
    quote: &Quote<'_>,
) -> Result<Vec<NamedPcr>, AllocError> {
    let mut covered = Vec::new();
    for selection in quote.pcr_selections() {
        push_selected(&mut covered, &selection)?;
    }
    Ok(covered)
}

/// Appends the PCRs that a selection selects, ascending; none if their bank can't be replayed.
fn push_selected(
    covered: &mut Vec<NamedPcr>,
    selection: &PcrSelection<'_>,
) -> Result<(), AllocError> {
    let Some(bank) = bank_of(selection.algorithm()) else {
        return Ok(());
    };
    for pcr in selection.pcrs() {
        covered.fallible_push(NamedPcr { bank, pcr: pcr.0 })?;
    }
    Ok(())
}

/// Returns whether a quote covers a PCR of a bank.
pub(crate) fn is_covered(quote: &Quote<'_>, bank: Bank, pcr: u32) -> bool {
    quote.pcr_selections().any(|it| it.algorithm() == bank.algorithm() && is_selected_by(&it, pcr))
}

/// Returns whether a selection of a quote selects a PCR.
fn is_selected_by(selection: &PcrSelection<'_>, pcr: u32) -> bool {
    selection.pcrs().any(|it| it.0 == pcr)
}
