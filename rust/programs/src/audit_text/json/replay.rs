// @generated from proved source. It is not edited.

use crate::audit_text::json::bank::banks_json;
use crate::audit_text::json::line::push_line;
use crate::audit_text::json::not_replayed::not_replayed_json;
use uefi_formats::pcr::BankPcrs;
use crate::serde_json::{Map, Value, json, put};
use crate::support::alloc::AllocError;
use crate::uefi_audits::facts::LogFacts;
use crate::uefi_audits::known_start::KnownStart;

/// Appends what a log leads to as one line of JSON: an object, and a line break.
///
/// | key | value |
/// |---|---|
/// | `banks` | an object for each bank; `null` if the log is refused |
/// | `left_over` | `count` and `offset` of the bytes after the last event; `null` if none are |
/// | `locality` | `number`, at which PCR 0 starts, and `stated`: whether the log or the caller says so |
/// | `log` | the file's name |
/// | `not_replayed` | the algorithms in the header's table that `banks` lacks, by ascending number |
/// | `padding` | `count` and `offset` of the padding after the last event; `null` if there is none |
///
/// | key of a bank | value |
/// |---|---|
/// | `algorithm` | its name |
/// | `pcrs` | the 24 PCRs: each its value in hex, or `null` if it is undetermined |
/// | `undetermined` | for each PCR that is, `pcr` and the event: `index`, `offset`, `reason` |
///
/// An algorithm in `not_replayed` is the name of its bank, or its number in hex if that bank can't
/// be replayed.
///
/// # Errors
///
/// [`AllocError`] if an allocation fails. The text may have grown then.
pub fn push_replay_json(
    text: &mut String,
    name: &str,
    facts: &LogFacts,
    banks: Option<&[BankPcrs]>,
) -> Result<(), AllocError> {
    let value = replay_json(name, facts, banks)?;
    push_line(text, &value)
}

/// Returns the object of a log with this name.
fn replay_json(
    name: &str,
    facts: &LogFacts,
    banks: Option<&[BankPcrs]>,
) -> Result<Value, AllocError> {
    let (offset, algorithms) = (facts.trailing.offset, facts.algorithms.as_slice());
    let mut members = Map::new();
    let all = banks_json(banks)?;
    put(&mut members, "banks", all)?;
    let left_over = part_json(offset, facts.trailing.left_over)?;
    put(&mut members, "left_over", left_over)?;
    let locality = locality_json(&facts.start)?;
    put(&mut members, "locality", locality)?;
    let log = Value::try_from_str(name)?;
    put(&mut members, "log", log)?;
    let not_replayed = not_replayed_json(algorithms, banks.unwrap_or(&[]))?;
    put(&mut members, "not_replayed", not_replayed)?;
    let padding = part_json(offset, facts.trailing.padding)?;
    put(&mut members, "padding", padding)?;
    Ok(Value::Object(members))
}

/// Returns bytes that begin at an offset: their count and that offset; `null` if there are none.
fn part_json(offset: usize, count: usize) -> Result<Value, AllocError> {
    if count == 0 {
        return Ok(Value::Null);
    }
    json!({"count": count, "offset": offset})
}

/// Returns the locality at which PCR 0 starts, and whether it is stated.
fn locality_json(known: &KnownStart) -> Result<Value, AllocError> {
    let (number, stated) = (known.start.locality, known.is_stated);
    json!({"number": number, "stated": stated})
}
