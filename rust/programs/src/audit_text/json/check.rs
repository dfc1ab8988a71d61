// @generated from proved source. It is not edited.

//! What was checked, as JSON.

use crate::support::fallible::*;

use super::out_of_place::push_remarks;
use crate::audit_text::json::{push_line, type_json};
use crate::audit_text::words::form_name;
use crate::serde_json::{Map, Value, json, put};
use crate::support::alloc::AllocError;
use crate::uefi_audits::check::{CheckResult, Form, Mismatch, TypeCounts};

/// Appends what was found of the events of a log as JSON: a line with an object for each event that
/// matches in none of its type's forms, for each that is out of place, and for each PCR without a
/// separator, and then a line with one for the types of the events.
///
/// | key of an event | value |
/// |---|---|
/// | `index` | its index in the log |
/// | `log` | what was given: the log's name |
/// | `matches` | `false` |
/// | `offset` | where it starts in the log's bytes |
/// | `pcr` | the index of its PCR |
/// | `type` | an object with `name`, if the type has one, and `number` |
///
/// An event that is out of place has `out_of_place` in place of `matches`: `second separator`,
/// `separator of another value`, `type of other PCRs`, `after the separator`, or `other than its data
/// was measured`. A PCR without a separator has `log`, `out_of_place`, which is `no separator`, and
/// `pcr`.
///
/// The last line's object has the log's name as `log`, and as `checked` an array with an object for
/// each type of the events, in the order of the types' numbers.
///
/// | key of a type | value |
/// |---|---|
/// | `forms` | an object with how many match in each form in which any matches |
/// | `matched` | how many match |
/// | `matches_none` | how many match in none of the type's forms |
/// | `not_covered` | how many aren't covered |
/// | `not_in_log` | of how many the log doesn't have what was measured |
/// | `type` | an object with `name`, if the type has one, and `number` |
///
/// # Errors
///
/// [`AllocError`] if an allocation fails. The text may have grown then.
pub fn push_check_json(
    text: &mut String,
    log: &str,
    found: &CheckResult<'_>,
) -> Result<(), AllocError> {
    push_mismatches(text, log, found.mismatches.as_slice())?;
    push_remarks(text, log, &found.remarks)?;
    push_types(text, log, found.types.as_slice())
}

/// Appends a line for each event that matches in none of its type's forms.
fn push_mismatches(
    text: &mut String,
    log: &str,
    mismatches: &[Mismatch<'_>],
) -> Result<(), AllocError> {
    for mismatch in mismatches {
        let value = mismatch_json(log, mismatch)?;
        push_line(text, &value)?;
    }
    Ok(())
}

/// Returns an event that matches in none of its type's forms.
fn mismatch_json(log: &str, mismatch: &Mismatch<'_>) -> Result<Value, AllocError> {
    let entry = &mismatch.entry;
    let mut members = Map::new();
    put(&mut members, "index", Value::from(mismatch.index))?;
    let log = Value::try_from_str(log)?;
    put(&mut members, "log", log)?;
    put(&mut members, "matches", Value::Bool(false))?;
    put(&mut members, "offset", Value::from(entry.offset))?;
    let pcr = entry.event.pcr_index().0;
    put(&mut members, "pcr", Value::from(pcr))?;
    let event_type = type_json(entry.event.event_type())?;
    put(&mut members, "type", event_type)?;
    Ok(Value::Object(members))
}

/// Appends the line of the types.
fn push_types(
    text: &mut String,
    log: &str,
    types: &[TypeCounts],
) -> Result<(), AllocError> {
    let value = types_json(log, types)?;
    push_line(text, &value)
}

/// Returns the counts of the types.
fn types_json(log: &str, types: &[TypeCounts]) -> Result<Value, AllocError> {
    let mut checked = Vec::new();
    for counts in types {
        checked.fallible_push(counts_json(counts)?)?;
    }
    json!({"checked": Value::Array(checked), "log": log})
}

/// Returns the counts of a type.
fn counts_json(counts: &TypeCounts) -> Result<Value, AllocError> {
    let mut members = Map::new();
    let forms = forms_json(counts)?;
    put(&mut members, "forms", forms)?;
    let (matches, none) = (counts.matches, counts.matches_none);
    put(&mut members, "matched", Value::from(matches))?;
    put(&mut members, "matches_none", Value::from(none))?;
    let (uncovered, outside) = (counts.not_covered, counts.not_in_log);
    put(&mut members, "not_covered", Value::from(uncovered))?;
    put(&mut members, "not_in_log", Value::from(outside))?;
    let event_type = type_json(counts.event_type)?;
    put(&mut members, "type", event_type)?;
    Ok(Value::Object(members))
}

/// Returns how many match in each form in which any matches.
fn forms_json(counts: &TypeCounts) -> Result<Value, AllocError> {
    let mut members = Map::new();
    for form in Form::ALL {
        put_form(&mut members, counts.matching_in(form), form)?;
    }
    Ok(Value::Object(members))
}

/// Puts in how many match in a form, if any does.
fn put_form(
    members: &mut Map<String, Value>,
    count: u64,
    form: Form,
) -> Result<(), AllocError> {
    if count == 0 {
        return Ok(());
    }
    put(members, form_name(form), Value::from(count))
}
