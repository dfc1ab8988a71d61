// @generated from proved source. It is not edited.

use uefi_formats::pcr::{BankPcrs, PcrValue, Undetermined};
use crate::support::alloc::AllocError;
use crate::uefi_audits::naming::bank_name;

/// Appends the PCRs of each bank, as [`push_bank`] does.
///
/// # Errors
///
/// [`AllocError`] if an allocation fails. The text may have grown then.
pub fn push_banks(
    text: &mut String,
    banks: &[BankPcrs],
) -> Result<(), AllocError> {
    for bank in banks {
        push_bank(text, bank)?;
    }
    Ok(())
}

/// Appends the PCRs of a bank, as `tpm2_pcrread` of tpm2-tools 5.4 prints them: a line with the
/// bank's name, and a line for each PCR with its value in hex, in upper case. The word
/// `undetermined` is in place of a value that isn't known.
///
/// # Errors
///
/// [`AllocError`] if an allocation fails. The text may have grown then.
pub fn push_bank(
    text: &mut String,
    bank: &BankPcrs,
) -> Result<(), AllocError> {
    let name = bank_name(bank.bank);
    fallible_writeln!(text, "  {name}:")?;
    let outcomes = bank.pcrs.outcomes();
    for number in 0..outcomes.len() {
        push_pcr(text, number, &outcomes[number])?;
    }
    Ok(())
}

/// Appends the line of a PCR.
fn push_pcr(
    text: &mut String,
    number: usize,
    outcome: &Result<PcrValue, Undetermined>,
) -> Result<(), AllocError> {
    let gap = padding(number);
    match outcome {
        Ok(value) => {
            let digits = crate::hex::encode_upper(value.as_bytes())?;
            fallible_writeln!(text, "    {number}{gap}: 0x{digits}")
        }
        Err(_) => fallible_writeln!(text, "    {number}{gap}: undetermined"),
    }
}

/// Returns what follows a PCR's number, so that it is as wide as two digits.
fn padding(number: usize) -> &'static str {
    if number < 10 { " " } else { "" }
}
