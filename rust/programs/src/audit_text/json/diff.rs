// @generated from proved source. It is not edited.

use crate::support::fallible::*;

use crate::audit_text::compared_logs::ComparedLogs;
use crate::audit_text::json::digests::algorithm_json;
use crate::audit_text::json::event::event_json;
use crate::audit_text::json::line::push_line;
use crate::serde_json::{Map, Value, json, put};
use crate::support::alloc::AllocError;
use crate::uefi_audits::diff::{
    EventChange, EventDifference, NumberedEntry, PcrDifference, event_differences,
};
use uefi_formats::proto::tcg::AlgorithmId;

/// Appends how the events of two logs differ, as lines of JSON: an object that says what is
/// compared, and then an object for each difference, in the order of
/// [`push_differences`](crate::audit_text::text::push_differences).
///
/// | key of the first object | value |
/// |---|---|
/// | `compared` | the algorithms whose digests are compared, each its name, or the number of one without a name |
/// | `new`, `old` | the names of the logs |
///
/// | key of a difference | value |
/// |---|---|
/// | `difference` | what it is, as below |
/// | `new`, `old` | the event of each log; `null` if it isn't in that log |
/// | `pcr` | the index of the PCR |
///
/// | `difference` | of |
/// |---|---|
/// | `changed` | an event whose counterpart isn't the same |
/// | `only_old`, `only_new` | an event that has no counterpart |
/// | `moved` | the first event whose order is another |
///
/// Each event is the whole object of [`event_line`](crate::audit_text::json::event_line).
///
/// # Errors
///
/// [`AllocError`] if an allocation fails. The text may have grown then.
pub fn push_differences_json(
    text: &mut String,
    logs: &ComparedLogs<'_>,
    differences: &[PcrDifference<'_>],
) -> Result<(), AllocError> {
    let compared = compared_json(logs)?;
    push_line(text, &compared)?;
    let differences = event_differences(differences)?;
    push_each(text, logs, differences.as_slice())
}

/// Returns what is compared.
fn compared_json(logs: &ComparedLogs<'_>) -> Result<Value, AllocError> {
    let algorithms = Value::Array(each_algorithm(logs.algorithms)?);
    json!({"compared": algorithms, "new": logs.new_name, "old": logs.old_name})
}

/// Returns each algorithm.
fn each_algorithm(algorithms: &[AlgorithmId]) -> Result<Vec<Value>, AllocError> {
    let mut values = Vec::new();
    for algorithm in algorithms {
        let value = algorithm_json(*algorithm)?;
        values.fallible_push(value)?;
    }
    Ok(values)
}

/// Appends a line for each of these differences.
fn push_each(
    text: &mut String,
    logs: &ComparedLogs<'_>,
    differences: &[EventDifference<'_, '_>],
) -> Result<(), AllocError> {
    for difference in differences {
        let value = event_difference_json(logs, difference)?;
        push_line(text, &value)?;
    }
    Ok(())
}

/// Returns a difference in an event.
fn event_difference_json(
    logs: &ComparedLogs<'_>,
    difference: &EventDifference<'_, '_>,
) -> Result<Value, AllocError> {
    match difference {
        EventDifference::Changed(change) => pair_json(logs, "changed", change),
        EventDifference::OnlyOld(found) => {
            let old = entry_json(logs.old_name, found)?;
            difference_json(
                "only_old",
                found.entry.event.pcr_index().0,
                old,
                Value::Null,
            )
        }
        EventDifference::OnlyNew(found) => {
            let new = entry_json(logs.new_name, found)?;
            difference_json(
                "only_new",
                found.entry.event.pcr_index().0,
                Value::Null,
                new,
            )
        }
        EventDifference::Moved(change) => pair_json(logs, "moved", change),
    }
}

/// Returns an event and its counterpart.
fn pair_json(
    logs: &ComparedLogs<'_>,
    kind: &str,
    change: &EventChange<'_>,
) -> Result<Value, AllocError> {
    let old = entry_json(logs.old_name, &change.old)?;
    let new = entry_json(logs.new_name, &change.new)?;
    difference_json(kind, change.old.entry.event.pcr_index().0, old, new)
}

/// Returns what differs: what kind of difference it is, its PCR, and what each log has.
fn difference_json(
    kind: &str,
    pcr: u32,
    old: Value,
    new: Value,
) -> Result<Value, AllocError> {
    let mut members = Map::new();
    let kind = Value::try_from_str(kind)?;
    put(&mut members, "difference", kind)?;
    put(&mut members, "new", new)?;
    put(&mut members, "old", old)?;
    put(&mut members, "pcr", Value::from(pcr))?;
    Ok(Value::Object(members))
}

/// Returns an event of a log.
fn entry_json(name: &str, found: &NumberedEntry<'_>) -> Result<Value, AllocError> {
    event_json(name, found.index, &found.entry, &found.content)
}
