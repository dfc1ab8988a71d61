// @generated from proved source. It is not edited.

use crate::support::fallible::*;

use crate::audit_text::text::agreement::{push_agreement, push_ranges};
use crate::audit_text::text::undetermined::push_line;
use crate::audit_text::text::unreplayed::{push_inactive, push_unsupported};
use uefi_formats::pcr::NoQuoteDigest;
use crate::shown::ShownName;
use crate::support::alloc::AllocError;
use uefi_formats::pcr::ClockInfo;
use crate::uefi_audits::naming::{bank_name, bank_of};
use crate::uefi_audits::verify::{NamedPcr, QuoteVerdict, ReceivedQuote, covered_pcrs};

/// Appends the line of a quote's nonce, if it isn't the one that the quote was asked for with. The
/// line begins with `name`, that of the quote's file.
///
/// # Errors
///
/// [`AllocError`] if an allocation fails. The text may have grown then.
pub fn push_other_nonce(
    text: &mut String,
    name: &str,
    received: &ReceivedQuote<'_>,
) -> Result<(), AllocError> {
    let Some(nonce) = received.nonce else {
        return Ok(());
    };
    if received.has_its_nonce() {
        return Ok(());
    }
    let name = ShownName(name);
    fallible_write!(text, "{name}: has ")?;
    push_nonce(text, received.quote.extra_data())?;
    text.fallible_push_str(", not ")?;
    push_nonce(text, nonce)?;
    text.fallible_push_str("\n")
}

/// Appends a nonce in hex.
fn push_nonce(
    text: &mut String,
    nonce: &[u8],
) -> Result<(), AllocError> {
    if nonce.is_empty() {
        return text.fallible_push_str("no nonce");
    }
    let digits = crate::hex::encode(nonce)?;
    fallible_write!(text, "nonce 0x{digits}")
}

/// Appends the line of a quote: the hash function of its digest, its nonce, and the clock of the TPM.
///
/// # Errors
///
/// [`AllocError`] if an allocation fails. The text may have grown then.
pub fn push_quote(
    text: &mut String,
    name: &str,
    received: &ReceivedQuote<'_>,
) -> Result<(), AllocError> {
    let (name, hash) = (ShownName(name), bank_name(received.hash));
    fallible_write!(text, "{name}: hash {hash}, ")?;
    push_nonce(text, received.quote.extra_data())?;
    push_clock(text, received.quote.clock_info())
}

/// Appends a clock.
fn push_clock(text: &mut String, clock_info: ClockInfo) -> Result<(), AllocError> {
    let ClockInfo {
        clock,
        reset_count,
        restart_count,
        safe,
    } = clock_info;
    let safe = safe_text(safe);
    fallible_writeln!(text,
        ", clock {clock} ms, {safe}, reset count {reset_count}, restart count {restart_count}"
    )
}

/// Returns whether a clock never showed a greater value, in words.
fn safe_text(safe: bool) -> &'static str {
    if safe { "safe" } else { "not safe" }
}

/// Appends the line of a verdict on a quote: the PCRs that it covers, and if the log doesn't lead to
/// them, both digests. It says that all agrees only if the nonce does, too. Nothing, if the log leads to
/// no digest. The line begins with `name`, the log's.
///
/// # Errors
///
/// [`AllocError`] if an allocation fails. The text may have grown then.
pub fn push_quote_verdict(
    text: &mut String,
    name: &str,
    verdict: &QuoteVerdict<'_>,
) -> Result<(), AllocError> {
    let Ok(found) = &verdict.digest else {
        return Ok(());
    };
    let quote = &verdict.received.quote;
    let covered = covered_pcrs(quote)?;
    let locality = verdict.start.start.locality;
    if verdict.agrees() {
        return push_agreement(text, name, covered.as_slice(), locality);
    }
    if verdict.digest_agrees {
        return push_nonce_differs(text, name, covered.as_slice(), locality);
    }
    let name = ShownName(name);
    fallible_write!(text, "{name}: differs: ")?;
    push_ranges(text, covered.as_slice())?;
    push_digests(text, quote.pcr_digest(), found.as_bytes(), locality)
}

/// Appends the line of a quote that differs in its nonce alone: the log leads to the PCRs that it covers.
fn push_nonce_differs(
    text: &mut String,
    name: &str,
    pcrs: &[NamedPcr],
    locality: u8,
) -> Result<(), AllocError> {
    let name = ShownName(name);
    fallible_write!(text, "{name}: differs: the nonce, not ")?;
    push_ranges(text, pcrs)?;
    fallible_writeln!(text, " (PCR 0 starts at locality {locality})")
}

/// Appends the digest of a quote, and that of the PCRs to which a log leads.
fn push_digests(
    text: &mut String,
    quoted: &[u8],
    found: &[u8],
    locality: u8,
) -> Result<(), AllocError> {
    let quoted = crate::hex::encode(quoted)?;
    let found = crate::hex::encode(found)?;
    fallible_writeln!(text,
        ": the quote has the digest 0x{quoted}, the log leads to 0x{found} \
         (PCR 0 starts at locality {locality})"
    )
}

/// Appends why a log leads to no digest, for standard error, by the log's name.
///
/// # Errors
///
/// [`AllocError`] if an allocation fails. The text may have grown then.
pub fn push_no_digest(
    messages: &mut String,
    name: &str,
    why: NoQuoteDigest,
) -> Result<(), AllocError> {
    match why {
        NoQuoteDigest::NoBank(algorithm) => match bank_of(algorithm) {
            Some(bank) => push_inactive(messages, name, &[bank]),
            None => push_unsupported(messages, name, &[algorithm.0]),
        },
        NoQuoteDigest::Undetermined(algorithm, pcr, at) => match bank_of(algorithm) {
            Some(bank) => push_line(messages, name, bank, pcr.0 as usize, &at),
            None => push_unsupported(messages, name, &[algorithm.0]),
        },
        _ => unreachable!(),
    }
}

/// Appends that a quote covers no PCR, for standard error, by the name of its file.
///
/// # Errors
///
/// [`AllocError`] if an allocation fails. The text may have grown then.
pub fn push_no_pcr(messages: &mut String, name: &str) -> Result<(), AllocError> {
    let name = ShownName(name);
    fallible_writeln!(messages, "{name}: covers no PCR")
}
