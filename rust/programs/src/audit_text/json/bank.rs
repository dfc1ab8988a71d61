// @generated from proved source. It is not edited.

use crate::support::fallible::*;

use crate::audit_text::json::event::hex_json;
use uefi_formats::pcr::{BankPcrs, PcrValue, Pcrs, Undetermined};
use crate::serde_json::{Value, json};
use crate::support::alloc::AllocError;
use crate::uefi_audits::naming::bank_name;

/// Returns the banks of a log; `null` if it is refused.
pub(crate) fn banks_json(banks: Option<&[BankPcrs]>) -> Result<Value, AllocError> {
    let Some(banks) = banks else {
        return Ok(Value::Null);
    };
    let mut values = Vec::new();
    for bank in banks {
        values.fallible_push(bank_json(bank)?)?;
    }
    Ok(Value::Array(values))
}

/// Returns a bank: its name, its PCRs, and the events by which some are undetermined.
fn bank_json(bank: &BankPcrs) -> Result<Value, AllocError> {
    let name = bank_name(bank.bank);
    let mut pcrs = Vec::new();
    for outcome in bank.pcrs.outcomes() {
        pcrs.fallible_push(match outcome {
            Ok(value) => hex_json(value.as_bytes())?,
            Err(_) => Value::Null,
        })?;
    }
    let pcrs = Value::Array(pcrs);
    let undetermined = Value::Array(all_undetermined(&bank.pcrs)?);
    json!({"algorithm": name, "pcrs": pcrs, "undetermined": undetermined})
}

/// Returns the events by which PCRs are undetermined, in the order of the PCRs.
fn all_undetermined(pcrs: &Pcrs) -> Result<Vec<Value>, AllocError> {
    let outcomes = pcrs.outcomes();
    let mut values = Vec::new();
    for pcr in 0..outcomes.len() {
        push_if_undetermined(&mut values, pcr, &outcomes[pcr])?;
    }
    Ok(values)
}

/// Appends the event by which a PCR is undetermined, if it is.
fn push_if_undetermined(
    values: &mut Vec<Value>,
    pcr: usize,
    outcome: &Result<PcrValue, Undetermined>,
) -> Result<(), AllocError> {
    match outcome {
        Ok(_) => Ok(()),
        Err(at) => {
            let value = undetermined_json(pcr, at)?;
            values.fallible_push(value)?;
            Ok(())
        }
    }
}

/// Returns the event by which a PCR is undetermined: its index, its offset, and why.
fn undetermined_json(pcr: usize, at: &Undetermined) -> Result<Value, AllocError> {
    let (index, offset) = (at.index, at.offset);
    let reason = fallible_format!("{}", at.fault)?;
    json!({
        "index": index,
        "offset": offset,
        "pcr": pcr,
        "reason": reason
    })
}
