// @generated from proved source. It is not edited.

//! The remarks on the places of a log's events, as JSON.

use crate::audit_text::json::{push_line, type_json};
use crate::audit_text::words::rule_name;
use crate::serde_json::{Map, Value, json, put};
use crate::support::alloc::AllocError;
use crate::uefi_audits::out_of_place::{OutOfPlace, Remarks};

/// Appends the remarks: a line for each event that is out of place, and one for each PCR without a
/// separator.
pub(super) fn push_remarks(
    text: &mut String,
    log: &str,
    remarks: &Remarks<'_>,
) -> Result<(), AllocError> {
    for event in &remarks.events {
        let value = misplaced_json(log, event)?;
        push_line(text, &value)?;
    }
    push_unseparated(text, log, remarks.unseparated.as_slice())
}

/// Returns an event that is out of place.
fn misplaced_json(log: &str, found: &OutOfPlace<'_>) -> Result<Value, AllocError> {
    let entry = &found.entry;
    let mut members = Map::new();
    put(&mut members, "index", Value::from(found.index))?;
    let log = Value::try_from_str(log)?;
    put(&mut members, "log", log)?;
    put(&mut members, "offset", Value::from(entry.offset))?;
    let rule = Value::try_from_str(rule_name(found.rule))?;
    put(&mut members, "out_of_place", rule)?;
    let pcr = entry.event.pcr_index().0;
    put(&mut members, "pcr", Value::from(pcr))?;
    let event_type = type_json(entry.event.event_type())?;
    put(&mut members, "type", event_type)?;
    Ok(Value::Object(members))
}

/// Appends a line for each PCR without a separator.
fn push_unseparated(
    text: &mut String,
    log: &str,
    pcrs: &[u32],
) -> Result<(), AllocError> {
    for pcr in pcrs {
        let value = unseparated_json(log, *pcr)?;
        push_line(text, &value)?;
    }
    Ok(())
}

/// Returns a PCR without a separator.
fn unseparated_json(log: &str, pcr: u32) -> Result<Value, AllocError> {
    json!({"log": log, "out_of_place": "no separator", "pcr": pcr})
}
