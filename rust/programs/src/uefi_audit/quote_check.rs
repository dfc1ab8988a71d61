// @generated from proved source. It is not edited.

use crate::uefi_audit::failure::Status;
use crate::uefi_audit::log_file::{LogFile, Opened, judge};
use crate::uefi_audit::replay::has_no_pcr;
use crate::uefi_audit::report::Report;
use crate::uefi_audit::request::{Format, Reading};
use crate::uefi_audit::verification::{StatedPcrs, compare, lacking_report, status_of, verdict_text};
use crate::audit_text::json::{NotJudged, push_quote_json};
use crate::audit_text::text::{
    push_ignored, push_missing, push_no_digest, push_no_pcr, push_other_nonce, push_quote,
    push_quote_verdict, push_start, push_uncompared,
};
use uefi_formats::pcr::NoQuoteDigest;
use crate::support::alloc::AllocError;
use crate::uefi_audits::ignored::{IgnoredEvent, ignored_events};
use crate::uefi_audits::judgement::Judgement;
use crate::uefi_audits::verify::{ComparedPcrs, ComparedQuote, ReceivedQuote};

/// What `verify --quote` compares a log with, and how.
#[derive(Clone, Copy, Debug)]
pub(crate) struct QuoteCheck<'a> {
    /// The name of the quote's file.
    pub file: &'a str,
    /// The quote.
    pub received: ReceivedQuote<'a>,
    /// The PCRs that are compared as well, if there are any, and those that the quote has to cover.
    pub registers: StatedPcrs<'a>,
}

/// Returns what `verify --quote` prints of a log.
///
/// # Errors
///
/// [`AllocError`] if an allocation fails.
pub(crate) fn quote_report(
    log: Opened<'_>,
    reading: Reading,
    check: &QuoteCheck<'_>,
) -> Result<Report, AllocError> {
    let registers = &check.registers;
    match log {
        Opened::Refused(report) => report.refused_as(registers.log, registers.format),
        Opened::Read(file) => checked_report(&file, reading, check),
    }
}

/// Returns what is printed of whether a log leads to the digest of a quote. If all is well, it does, the
/// quote has its nonce, and it covers all that is asked for.
fn checked_report(
    file: &LogFile<'_>,
    reading: Reading,
    check: &QuoteCheck<'_>,
) -> Result<Report, AllocError> {
    let (judgement, messages) = judge(file, reading.allow_left_over)?;
    judged_report(judgement, messages, file, check)
}

/// Returns what is printed after these messages of a log with this judgement.
fn judged_report(
    judgement: Judgement,
    messages: String,
    file: &LogFile<'_>,
    check: &QuoteCheck<'_>,
) -> Result<Report, AllocError> {
    let (name, format) = (file.name, check.registers.format);
    match judgement {
        Judgement::Accepted => accepted_report(messages, file, check),
        Judgement::NothingMeasured => {
            Report::unjudged_as(messages, name, format, NotJudged::NothingMeasured)
        }
        Judgement::LeftOver => {
            Report::unjudged_as(messages, name, format, NotJudged::LeftOver)
        }
    }
}

/// Returns what is printed after these messages of a log that can be judged.
fn accepted_report(
    messages: String,
    file: &LogFile<'_>,
    check: &QuoteCheck<'_>,
) -> Result<Report, AllocError> {
    let registers = &check.registers;
    let compared = ComparedQuote::new(
        file.read.entries(),
        &check.received,
        registers.selections,
        registers.locality,
    )?;
    digest_report(messages, file, check, &compared)
}

/// Returns what is printed of a verdict after these messages, unless the log leads to no digest.
fn digest_report(
    messages: String,
    file: &LogFile<'_>,
    check: &QuoteCheck<'_>,
    compared: &ComparedQuote<'_>,
) -> Result<Report, AllocError> {
    let mut messages = messages;
    match compared.verdict.digest {
        Ok(_) => covered_report(messages, file, check, compared),
        Err(why) => {
            push_no_digest(&mut messages, file.name, why)?;
            let format = check.registers.format;
            Report::unjudged_as(messages, file.name, format, reason_of(why))
        }
    }
}

/// Returns why a log that leads to no digest isn't judged.
fn reason_of(why: NoQuoteDigest) -> NotJudged {
    match why {
        NoQuoteDigest::NoBank(_) => NotJudged::NoBank,
        NoQuoteDigest::Undetermined(..) => NotJudged::Undetermined,
        _ => unreachable!(),
    }
}

/// Returns what is printed of a verdict after these messages, unless the quote covers no PCR, or not
/// those that are asked for.
fn covered_report(
    messages: String,
    file: &LogFile<'_>,
    check: &QuoteCheck<'_>,
    compared: &ComparedQuote<'_>,
) -> Result<Report, AllocError> {
    let mut messages = messages;
    if compared.coverage.covered.is_empty() {
        push_no_pcr(&mut messages, check.file)?;
        let format = check.registers.format;
        return Report::unjudged_as(messages, file.name, format, NotJudged::NoPcr);
    }
    if !compared.coverage.missing.is_empty() {
        return lacking_quote(messages, file.name, check, compared);
    }
    let report = verdict_report(messages, file, check, compared)?;
    with_registers(file, check, report)
}

/// Returns what is printed after these messages of a quote that doesn't cover PCRs that are asked for.
fn lacking_quote(
    messages: String,
    name: &str,
    check: &QuoteCheck<'_>,
    compared: &ComparedQuote<'_>,
) -> Result<Report, AllocError> {
    let mut messages = messages;
    push_missing(
        &mut messages,
        check.file,
        compared.coverage.missing.as_slice(),
    )?;
    let mut text = String::new();
    match check.registers.format {
        Format::Text => {}
        Format::Json => push_quote_json(&mut text, name, compared)?,
    }
    Ok(Report {
        text,
        messages,
        status: Status::Unjudged,
    })
}

/// Returns what is printed after these messages of the verdict on a quote.
fn verdict_report(
    messages: String,
    file: &LogFile<'_>,
    check: &QuoteCheck<'_>,
    compared: &ComparedQuote<'_>,
) -> Result<Report, AllocError> {
    let mut messages = messages;
    let ignored = ignored_events(file.read.entries())?;
    push_start(&mut messages, file.name, &compared.verdict.start)?;
    push_ignored(&mut messages, file.name, ignored.as_slice())?;
    push_uncompared(
        &mut messages,
        file.name,
        compared.coverage.extended.as_slice(),
    )?;
    Ok(Report {
        text: quote_text(file.name, check, compared)?,
        messages,
        status: quote_status(compared, ignored.as_slice()),
    })
}

/// Returns the verdict on a quote in a format.
fn quote_text(
    name: &str,
    check: &QuoteCheck<'_>,
    compared: &ComparedQuote<'_>,
) -> Result<String, AllocError> {
    let mut text = String::new();
    let received = &compared.verdict.received;
    match check.registers.format {
        Format::Text => {
            push_other_nonce(&mut text, check.file, received)?;
            push_quote(&mut text, check.file, received)?;
            push_quote_verdict(&mut text, name, &compared.verdict)?;
        }
        Format::Json => push_quote_json(&mut text, name, compared)?,
    }
    Ok(text)
}

/// Returns the status of a verdict on a quote: it differs if its digest or its nonce does, or one of
/// the events without effect should have extended a PCR that no TPM has.
fn quote_status(compared: &ComparedQuote<'_>, ignored: &[IgnoredEvent]) -> Status {
    if has_no_pcr(ignored) || !compared.verdict.agrees() {
        return Status::Differs;
    }
    Status::Well
}

/// Returns the report on a quote, with what is printed of the PCRs that are compared as well.
fn with_registers(
    file: &LogFile<'_>,
    check: &QuoteCheck<'_>,
    quote: Report,
) -> Result<Report, AllocError> {
    if check.registers.pcrs.is_empty() {
        return Ok(quote);
    }
    quote.and(&registers_report(file, &check.registers)?)
}

/// Returns what is printed of PCRs that are compared beside a quote.
fn registers_report(
    file: &LogFile<'_>,
    stated: &StatedPcrs<'_>,
) -> Result<Report, AllocError> {
    let compared = compare(file, stated)?;
    registers_verdict(file, stated, &compared)
}

/// Returns what is printed of the verdict on them, unless some that are asked for are missing: nothing
/// if they agree, since the verdict is the quote's.
fn registers_verdict(
    file: &LogFile<'_>,
    stated: &StatedPcrs<'_>,
    compared: &ComparedPcrs,
) -> Result<Report, AllocError> {
    let messages = String::new();
    if !compared.coverage.missing.is_empty() {
        return lacking_report(messages, file.name, stated, compared);
    }
    let text = if compared.agrees() {
        String::new()
    } else {
        verdict_text(file.name, compared, stated.format)?
    };
    Ok(Report {
        text,
        messages,
        status: status_of(&compared.verdict, &[]),
    })
}
