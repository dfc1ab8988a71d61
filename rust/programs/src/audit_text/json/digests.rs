// @generated from proved source. It is not edited.

use crate::support::fallible::*;

use crate::audit_text::words::names::algorithm_name;
use uefi_formats::pcr::{Bank, is_hash_of_data};
use crate::serde_json::{Value, json};
use crate::support::alloc::AllocError;
use crate::uefi_audits::naming::bank_name;
use uefi_formats::proto::tcg::{AlgorithmId, LogEvent};

/// Returns the digests of an event as JSON, in order.
pub(crate) fn digests_json(event: &LogEvent<'_>) -> Result<Vec<Value>, AllocError> {
    let mut values = Vec::new();
    for (algorithm, digest) in event.digests() {
        let value = digest_json(algorithm, digest)?;
        values.fallible_push(value)?;
    }
    Ok(values)
}

/// Returns a digest: the name of its algorithm, and its bytes in hex.
fn digest_json(algorithm: AlgorithmId, digest: &[u8]) -> Result<Value, AllocError> {
    let algorithm = algorithm_json(algorithm)?;
    let digest = crate::hex::encode(digest)?;
    let digest = digest.as_str();
    json!({"algorithm": algorithm, "digest": digest})
}

/// Returns an algorithm as JSON: its name, or the number of one without a name.
///
/// # Errors
///
/// [`AllocError`] if an allocation fails.
pub(crate) fn algorithm_json(algorithm: AlgorithmId) -> Result<Value, AllocError> {
    match algorithm_name(algorithm) {
        Some(name) => Value::try_from_str(name),
        None => Ok(Value::from(algorithm.0)),
    }
}

/// Returns the names of the banks in which an event's digest is the hash of its data.
pub(crate) fn hashed_banks(event: &LogEvent<'_>) -> Result<Vec<Value>, AllocError> {
    let mut names = Vec::new();
    for bank in &Bank::ALL {
        push_hashed(&mut names, *bank, event)?;
    }
    Ok(names)
}

/// Appends the bank's name, if the event's digest of the bank is the hash of its data.
fn push_hashed(
    names: &mut Vec<Value>,
    bank: Bank,
    event: &LogEvent<'_>,
) -> Result<(), AllocError> {
    if is_hash_of_data(bank, event) {
        let name = Value::try_from_str(bank_name(bank))?;
        names.fallible_push(name)?;
    }
    Ok(())
}
