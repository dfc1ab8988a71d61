// @generated from proved source. It is not edited.

use crate::support::fallible::*;

use crate::audit_text::json::coverage::{covered_json, not_covered_json, push_unless};
use crate::audit_text::json::digests::algorithm_json;
use crate::audit_text::json::event::hex_json;
use crate::audit_text::json::line::push_line;
use crate::serde_json::{Map, Value, json, put};
use crate::support::alloc::AllocError;
use uefi_formats::pcr::{ClockInfo, PcrSelection, Quote};
use crate::uefi_audits::naming::bank_name;
use crate::uefi_audits::verify::{ComparedQuote, QuoteVerdict};

/// Appends whether a log agrees with a quote as one line of JSON: an object, and a line break.
///
/// | key | value |
/// |---|---|
/// | `agrees` | whether nothing failed |
/// | `covered` | the PCRs that the quote covers, an object for each bank: `bank`, `pcrs` |
/// | `failed` | what failed: `digest` if the log doesn't lead to the quote's, `nonce` if it is another one, `coverage` if PCRs that are asked for aren't covered, or none is |
/// | `locality` | the locality at which PCR 0 starts |
/// | `log` | what was given: the log's name |
/// | `not_covered` | such objects of the PCRs that are asked for and not covered; and with the bank `null` one of those that events extend and of which no bank is covered |
/// | `quote` | the quote |
///
/// | key of the quote | value |
/// |---|---|
/// | `banks` | for each selection: `algorithm` (a name, or a number), `pcrs` |
/// | `clock` | the TPM's clock: `clock` in milliseconds, `reset_count`, `restart_count`, `safe` |
/// | `digest` | its digest, in hex |
/// | `digest_agrees` | whether the log leads to it |
/// | `hash` | the hash function of its digest |
/// | `leads_to` | the digest to which the log leads, in hex; `null` if it leads to none |
/// | `nonce` | its nonce, in hex |
/// | `nonce_agrees` | whether that is the nonce that was asked for; `null` if any will do |
///
/// # Errors
///
/// [`AllocError`] if an allocation fails. The text may have grown then.
pub fn push_quote_json(
    text: &mut String,
    name: &str,
    compared: &ComparedQuote<'_>,
) -> Result<(), AllocError> {
    let value = quote_json(name, compared)?;
    push_line(text, &value)
}

/// Returns the object of a log.
fn quote_json(name: &str, compared: &ComparedQuote<'_>) -> Result<Value, AllocError> {
    let mut members = Map::new();
    put(
        &mut members,
        "agrees",
        Value::Bool(compared.agrees()),
    )?;
    let covered = covered_json(compared.coverage.covered.as_slice())?;
    put(&mut members, "covered", covered)?;
    let failed = failed_json(compared)?;
    put(&mut members, "failed", failed)?;
    let locality = Value::from(compared.verdict.start.start.locality);
    put(&mut members, "locality", locality)?;
    let log = Value::try_from_str(name)?;
    put(&mut members, "log", log)?;
    let not_covered = not_covered_json(&compared.coverage)?;
    put(&mut members, "not_covered", not_covered)?;
    let quote = quote_object(&compared.verdict)?;
    put(&mut members, "quote", quote)?;
    Ok(Value::Object(members))
}

/// Returns what of a quote doesn't agree.
fn failed_json(compared: &ComparedQuote<'_>) -> Result<Value, AllocError> {
    let verdict = &compared.verdict;
    let mut failed = Vec::new();
    push_unless(&mut failed, verdict.digest_agrees, "digest")?;
    push_unless(
        &mut failed,
        verdict.received.has_its_nonce(),
        "nonce",
    )?;
    push_unless(&mut failed, compared.coverage.is_whole(), "coverage")?;
    Ok(Value::Array(failed))
}

/// Returns the object of a quote.
fn quote_object(verdict: &QuoteVerdict<'_>) -> Result<Value, AllocError> {
    let received = &verdict.received;
    let quote = &received.quote;
    let mut members = Map::new();
    let banks = Value::Array(each_selection(quote)?);
    put(&mut members, "banks", banks)?;
    let clock = clock_json(quote.clock_info())?;
    put(&mut members, "clock", clock)?;
    let digest = hex_json(quote.pcr_digest())?;
    put(&mut members, "digest", digest)?;
    let digest_agrees = Value::Bool(verdict.digest_agrees);
    put(&mut members, "digest_agrees", digest_agrees)?;
    let hash = Value::try_from_str(bank_name(received.hash))?;
    put(&mut members, "hash", hash)?;
    let leads_to = match &verdict.digest {
        Ok(digest) => hex_json(digest.as_bytes())?,
        Err(_) => Value::Null,
    };
    put(&mut members, "leads_to", leads_to)?;
    let nonce = hex_json(quote.extra_data())?;
    put(&mut members, "nonce", nonce)?;
    let nonce_agrees = match received.nonce {
        Some(_) => Value::Bool(received.has_its_nonce()),
        None => Value::Null,
    };
    put(&mut members, "nonce_agrees", nonce_agrees)?;
    Ok(Value::Object(members))
}

/// Returns each selection of a quote.
fn each_selection(quote: &Quote<'_>) -> Result<Vec<Value>, AllocError> {
    let mut values = Vec::new();
    for selection in quote.pcr_selections() {
        let value = selection_json(&selection)?;
        values.fallible_push(value)?;
    }
    Ok(values)
}

/// Returns a selection: the algorithm of its bank, and its PCRs.
fn selection_json(selection: &PcrSelection<'_>) -> Result<Value, AllocError> {
    let algorithm = algorithm_json(selection.algorithm())?;
    let pcrs = Value::Array(pcrs_json(selection)?);
    json!({"algorithm": algorithm, "pcrs": pcrs})
}

/// Returns the PCRs of a selection.
fn pcrs_json(selection: &PcrSelection<'_>) -> Result<Vec<Value>, AllocError> {
    let mut values = Vec::new();
    for pcr in selection.pcrs() {
        values.fallible_push(Value::from(pcr.0))?;
    }
    Ok(values)
}

/// Returns a clock.
fn clock_json(clock_info: ClockInfo) -> Result<Value, AllocError> {
    let ClockInfo {
        clock,
        reset_count,
        restart_count,
        safe,
    } = clock_info;
    json!({
        "clock": clock,
        "reset_count": reset_count,
        "restart_count": restart_count,
        "safe": safe
    })
}
