// @generated from proved source. It is not edited.

use crate::support::fallible::*;

use crate::audit_text::words::push_number;
use uefi_formats::pcr::BankPcrs;
use crate::serde_json::Value;
use crate::support::alloc::AllocError;
use crate::uefi_audits::naming::{bank_name, bank_of};
use uefi_formats::proto::tcg::AlgorithmId;

/// Returns those of these algorithms whose banks aren't among these.
pub(crate) fn not_replayed_json(
    algorithms: &[u16],
    banks: &[BankPcrs],
) -> Result<Value, AllocError> {
    let others = algorithms_without(algorithms, banks)?;
    let mut values = Vec::new();
    for algorithm in &others {
        values.fallible_push(algorithm_json(*algorithm)?)?;
    }
    Ok(Value::Array(values))
}

/// Returns those of these algorithms whose banks aren't among these.
fn algorithms_without(
    algorithms: &[u16],
    banks: &[BankPcrs],
) -> Result<Vec<u16>, AllocError> {
    algorithms
        .iter()
        .copied()
        .filter(|algorithm| !is_replayed(banks, *algorithm))
        .fallible_collect()
}

/// Returns whether one of these banks is an algorithm's.
fn is_replayed(banks: &[BankPcrs], algorithm: u16) -> bool {
    banks
        .iter()
        .any(|found| found.bank.algorithm().0 == algorithm)
}

/// Returns an algorithm: the name of its bank, or its number in hex if that bank can't be replayed.
fn algorithm_json(algorithm: u16) -> Result<Value, AllocError> {
    match bank_of(AlgorithmId(algorithm)) {
        Some(bank) => Value::try_from_str(bank_name(bank)),
        None => {
            let mut digits = String::new();
            push_number(&mut digits, algorithm)?;
            Ok(Value::String(digits))
        }
    }
}
