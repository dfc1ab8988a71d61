// @generated from proved source. It is not edited.

use crate::support::fallible::*;

use crate::audit_text::json::coverage::{covered_json, not_covered_json, push_unless};
use crate::audit_text::json::event::hex_json;
use crate::audit_text::json::line::push_line;
use uefi_formats::pcr::{BankPcrs, PcrValue, Undetermined};
use crate::serde_json::{Map, Value, json, put};
use crate::support::alloc::AllocError;
use crate::uefi_audits::naming::bank_name;
use crate::uefi_audits::verify::{ComparedPcrs, HeldPcr, agrees, led_to};

/// Appends whether a log leads to these PCRs as one line of JSON: an object, and a line break.
///
/// | key | value |
/// |---|---|
/// | `agrees` | whether nothing failed |
/// | `count` | how many PCRs are compared |
/// | `covered` | which PCRs are compared, an object for each bank: `bank`, `pcrs` |
/// | `disagreeing` | an object for each PCR that doesn't hold what the log leads to, in order |
/// | `failed` | what failed: `pcrs` if such a PCR is there, `coverage` if PCRs that are asked for aren't stated, or none is compared |
/// | `locality` | the locality at which PCR 0 starts |
/// | `log` | what was given: the log's name |
/// | `not_covered` | such objects of the PCRs that are asked for and not stated; and with the bank `null` one of those that events extend and of which no bank is compared |
///
/// | key of a PCR | value |
/// |---|---|
/// | `bank` | its bank's name |
/// | `held` | what it held, in hex |
/// | `leads_to` | what the log leads to, in hex; `null` if that is no value |
/// | `pcr` | its index |
/// | `undetermined` | the event by which it is undetermined: `index`, `offset`, `reason`; else `null` |
///
/// If the log has no such PCR, both `leads_to` and `undetermined` are `null`.
///
/// # Errors
///
/// [`AllocError`] if an allocation fails. The text may have grown then.
pub fn push_verdict_json(
    text: &mut String,
    name: &str,
    compared: &ComparedPcrs,
) -> Result<(), AllocError> {
    let value = verdict_json(name, compared)?;
    push_line(text, &value)
}

/// Returns the object of a log.
fn verdict_json(name: &str, compared: &ComparedPcrs) -> Result<Value, AllocError> {
    let (held, replays) = (
        compared.held.as_slice(),
        compared.verdict.replays.as_slice(),
    );
    let mut members = Map::new();
    put(
        &mut members,
        "agrees",
        Value::Bool(compared.agrees()),
    )?;
    put(&mut members, "count", Value::from(held.len()))?;
    let covered = covered_json(compared.coverage.covered.as_slice())?;
    put(&mut members, "covered", covered)?;
    let disagreeing = Value::Array(each_disagreeing(held, replays)?);
    put(&mut members, "disagreeing", disagreeing)?;
    let failed = failed_json(compared)?;
    put(&mut members, "failed", failed)?;
    let locality = Value::from(compared.verdict.start.start.locality);
    put(&mut members, "locality", locality)?;
    let log = Value::try_from_str(name)?;
    put(&mut members, "log", log)?;
    let not_covered = not_covered_json(&compared.coverage)?;
    put(&mut members, "not_covered", not_covered)?;
    Ok(Value::Object(members))
}

/// Returns what of PCRs doesn't agree.
fn failed_json(compared: &ComparedPcrs) -> Result<Value, AllocError> {
    let mut failed = Vec::new();
    push_unless(&mut failed, compared.verdict.is_agreement(), "pcrs")?;
    push_unless(&mut failed, compared.coverage.is_whole(), "coverage")?;
    Ok(Value::Array(failed))
}

/// Returns each PCR that doesn't agree.
fn each_disagreeing(
    held: &[HeldPcr],
    replays: &[BankPcrs],
) -> Result<Vec<Value>, AllocError> {
    let mut values = Vec::new();
    for pcr in held {
        push_if_disagreeing(&mut values, pcr, replays)?;
    }
    Ok(values)
}

/// Appends a PCR, unless it agrees.
fn push_if_disagreeing(
    values: &mut Vec<Value>,
    held: &HeldPcr,
    replays: &[BankPcrs],
) -> Result<(), AllocError> {
    if agrees(held, replays) {
        return Ok(());
    }
    let value = pcr_json(held, led_to(held, replays))?;
    values.fallible_push(value)?;
    Ok(())
}

/// Returns a PCR that doesn't agree: what it held, what the log leads to, and the event by which it
/// is undetermined.
fn pcr_json(
    held: &HeldPcr,
    outcome: Option<&Result<PcrValue, Undetermined>>,
) -> Result<Value, AllocError> {
    let held_value = hex_json(held.value.as_bytes())?;
    let leads_to = match outcome {
        Some(Ok(value)) => hex_json(value.as_bytes())?,
        _ => Value::Null,
    };
    let undetermined = undetermined_by(outcome)?;
    json!({
        "bank": bank_name(held.bank),
        "held": held_value,
        "leads_to": leads_to,
        "pcr": held.pcr,
        "undetermined": undetermined
    })
}

/// Returns the event by which a PCR is undetermined; `null` if it isn't.
fn undetermined_by(
    outcome: Option<&Result<PcrValue, Undetermined>>,
) -> Result<Value, AllocError> {
    match outcome {
        Some(Err(at)) => {
            let (index, offset) = (at.index, at.offset);
            let reason = fallible_format!("{}", at.fault)?;
            json!({"index": index, "offset": offset, "reason": reason})
        }
        _ => Ok(Value::Null),
    }
}
