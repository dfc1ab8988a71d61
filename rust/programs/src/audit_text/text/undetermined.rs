// @generated from proved source. It is not edited.

use uefi_formats::pcr::{Bank, BankPcrs, PcrValue, Pcrs, Undetermined};
use crate::shown::ShownName;
use crate::support::alloc::AllocError;
use crate::uefi_audits::naming::bank_name;

/// Appends a line for each PCR that is undetermined, for standard error: the file's name, the bank,
/// the PCR, and the index and the offset of the first event by which it is.
///
/// # Errors
///
/// [`AllocError`] if an allocation fails. The text may have grown then.
pub fn push_undetermined(
    told: &mut String,
    name: &str,
    banks: &[BankPcrs],
) -> Result<(), AllocError> {
    for bank in banks {
        push_of_bank(told, name, bank.bank, &bank.pcrs)?;
    }
    Ok(())
}

/// Appends a line for each PCR of a bank that is undetermined.
fn push_of_bank(
    told: &mut String,
    name: &str,
    bank: Bank,
    pcrs: &Pcrs,
) -> Result<(), AllocError> {
    let outcomes = pcrs.outcomes();
    for number in 0..outcomes.len() {
        push_if_undetermined(told, name, bank, number, &outcomes[number])?;
    }
    Ok(())
}

/// Appends the line of a PCR, if it is undetermined.
fn push_if_undetermined(
    told: &mut String,
    name: &str,
    bank: Bank,
    number: usize,
    outcome: &Result<PcrValue, Undetermined>,
) -> Result<(), AllocError> {
    match outcome {
        Ok(_) => Ok(()),
        Err(at) => push_line(told, name, bank, number, at),
    }
}

/// Appends the line of a PCR that is undetermined.
pub(super) fn push_line(
    told: &mut String,
    name: &str,
    bank: Bank,
    number: usize,
    at: &Undetermined,
) -> Result<(), AllocError> {
    let (name, bank) = (ShownName(name), bank_name(bank));
    fallible_writeln!(told, "{name}: {bank}: PCR {number} is undetermined: {at}")
}
