// @generated from proved source. It is not edited.

use crate::support::fallible::*;

use uefi_formats::pcr::Bank;
use crate::serde_json::{Value, json};
use crate::support::alloc::AllocError;
use crate::uefi_audits::naming::bank_name;
use crate::uefi_audits::verify::{Coverage, NamedPcr};

/// Returns the PCRs that are covered: for each bank an object with its name and the PCRs.
pub(crate) fn covered_json(covered: &[NamedPcr]) -> Result<Value, AllocError> {
    Ok(Value::Array(by_banks(covered)?))
}

/// Returns the PCRs that aren't covered: such objects of those that are asked for, and one whose bank is
/// `null` of those that events extend.
pub(crate) fn not_covered_json(coverage: &Coverage) -> Result<Value, AllocError> {
    let mut values = by_banks(coverage.missing.as_slice())?;
    push_if_any(
        &mut values,
        Value::Null,
        coverage.extended.as_slice(),
    )?;
    Ok(Value::Array(values))
}

/// Appends the name of what doesn't agree.
pub(crate) fn push_unless(
    failed: &mut Vec<Value>,
    agrees: bool,
    name: &str,
) -> Result<(), AllocError> {
    if agrees {
        return Ok(());
    }
    let name = Value::try_from_str(name)?;
    failed.fallible_push(name)?;
    Ok(())
}

/// Returns PCRs by banks.
fn by_banks(pcrs: &[NamedPcr]) -> Result<Vec<Value>, AllocError> {
    let mut values = Vec::new();
    for bank in &Bank::ALL {
        push_bank(&mut values, *bank, pcrs)?;
    }
    Ok(values)
}

/// Appends those of these PCRs that are of a bank, if there are any.
fn push_bank(
    values: &mut Vec<Value>,
    bank: Bank,
    pcrs: &[NamedPcr],
) -> Result<(), AllocError> {
    let name = Value::try_from_str(bank_name(bank))?;
    let numbers = numbers_in(pcrs, bank)?;
    push_if_any(values, name, numbers.as_slice())
}

/// Returns the numbers of those of these PCRs that are of a bank.
fn numbers_in(pcrs: &[NamedPcr], bank: Bank) -> Result<Vec<u32>, AllocError> {
    pcrs.iter()
        .filter(|it| it.bank == bank)
        .map(|it| it.pcr)
        .fallible_collect()
}

/// Appends the object of PCRs of a bank, if there are any.
fn push_if_any(
    values: &mut Vec<Value>,
    bank: Value,
    pcrs: &[u32],
) -> Result<(), AllocError> {
    if pcrs.is_empty() {
        return Ok(());
    }
    let pcrs = Value::Array(each_number(pcrs)?);
    let value = json!({"bank": bank, "pcrs": pcrs})?;
    values.fallible_push(value)?;
    Ok(())
}

/// Returns each number of a PCR.
fn each_number(pcrs: &[u32]) -> Result<Vec<Value>, AllocError> {
    let mut values = Vec::new();
    for pcr in pcrs {
        values.fallible_push(Value::from(*pcr))?;
    }
    Ok(values)
}
