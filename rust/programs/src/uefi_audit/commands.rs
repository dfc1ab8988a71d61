// @generated from proved source. It is not edited.

use crate::host::rt::{Eprint, Input, Print};

use crate::uefi_audit::checking::quoted_pcrs;
use crate::uefi_audit::comparison::difference_report;
use crate::uefi_audit::failure::{Failure, Status};
use crate::uefi_audit::file_name::FileName;
use crate::uefi_audit::input::{file_bytes, held_pcrs};
use crate::uefi_audit::log_file::{Opened, open_log};
use crate::uefi_audit::quote::{NotReceived, received_quote};
use crate::uefi_audit::quote_check::{QuoteCheck, quote_report};
use crate::uefi_audit::replay::Asked;
use crate::uefi_audit::replay_counts::ReplayCounts;
use crate::uefi_audit::report::{Report, unjudged_text};
use crate::uefi_audit::request::{AskedCoverage, AskedQuote, Compared, Format, Reading, Request, Verification};
use crate::uefi_audit::task::{Task, task_report};
use crate::uefi_audit::verification::{StatedPcrs, verify_report};
use crate::audit_text::json::NotJudged;
use crate::hex::FromHexError;
use crate::shown::ShownName;
use crate::host::rt::Files;
use crate::uefi_audits::verify::{
    HeldPcr, NamedPcr, PcrSelection, ReceivedQuote, asked_pcrs, selections_in,
};

/// Does what the arguments ask for.
pub(crate) fn perform<R: Files + Input + Print + Eprint>(
    rt: &R,
    request: &Request<'_, '_>,
    reading: Reading,
) -> Result<Status, Failure> {
    match *request {
        Request::Events(logs, format) => each_log(rt, logs, reading, Task::Events(format)),
        Request::Replay(logs, bank, locality, format) => {
            let is_one_of_many = logs.len() > 1;
            let asked = Asked {
                bank,
                locality,
                format,
                is_one_of_many,
            };
            each_log(rt, logs, reading, Task::Replay(asked))
        }
        Request::Verify(asked) => match (asked.quote, asked.registers) {
            (Some(quote), _) => verify_quote(rt, &asked, &quote, reading),
            (None, Some(registers)) => verify_log(rt, &asked, registers, reading),
            // `clap` makes sure that one of them is there.
            (None, None) => Err(Failure::Arguments),
        },
        Request::Diff(old, new, asked) => compare_logs(rt, [old, new], asked, reading),
        Request::Check(logs, asked, format) => check_logs(rt, logs, asked, format, reading),
    }
}

/// Does `check` with each log, over the PCRs that are covered.
fn check_logs<R: Files + Input + Print + Eprint>(
    rt: &R,
    logs: &[&str],
    asked: AskedCoverage<'_>,
    format: Format,
    reading: Reading,
) -> Result<Status, Failure> {
    let covered = match (asked.pcrs, asked.quote) {
        (Some(pcrs), _) => named_pcrs(rt, pcrs)?,
        (None, Some(quote)) => match pcrs_in_quote(rt, quote)? {
            Ok(covered) => covered,
            Err(status) => return Ok(status),
        },
        (None, None) => return each_log(rt, logs, reading, Task::Check(None, format)),
    };
    each_log(
        rt,
        logs,
        reading,
        Task::Check(Some(covered.as_slice()), format),
    )
}

/// Returns the PCRs that `--pcrs` names, each in a bank.
fn named_pcrs<R: Eprint>(rt: &R, pcrs: &str) -> Result<Vec<NamedPcr>, Failure> {
    let selections = selections_of(rt, Some(pcrs))?;
    if !name_banks(selections.as_slice()) {
        let _ = fallible_eprintln!(rt, "uefi_audit: --pcrs takes a bank for each selection, such as sha256:0-7"
        );
        return Err(Failure::Arguments);
    }
    let named = asked_pcrs(selections.as_slice())?;
    Ok(named)
}

/// Returns the PCRs that the quote in a file covers; or the status that follows where there are none,
/// which standard error is told.
fn pcrs_in_quote<R: Files + Input + Eprint>(
    rt: &R,
    file: &str,
) -> Result<Result<Vec<NamedPcr>, Status>, Failure> {
    let Some(bytes) = file_bytes(rt, FileName::of(file)) else {
        return Ok(Err(Status::Unread));
    };
    let name = ShownName(file);
    match quoted_pcrs(bytes.as_slice())? {
        Ok(covered) if covered.is_empty() => {
            let _ = fallible_eprintln!(rt, "uefi_audit: {name}: covers no PCR");
            Ok(Err(Status::Unjudged))
        }
        Ok(covered) => Ok(Ok(covered)),
        Err(error) => {
            let _ = fallible_eprintln!(rt, "uefi_audit: {name}: {error}");
            Ok(Err(Status::Unread))
        }
    }
}

/// Does a task with each log, one after another, of which one is in memory at a time.
fn each_log<R: Files + Input + Print + Eprint>(
    rt: &R,
    logs: &[&str],
    reading: Reading,
    task: Task<'_>,
) -> Result<Status, Failure> {
    let mut status = Status::Well;
    let mut counts = ReplayCounts::default();
    for name in logs {
        status = status.and(do_task(rt, *name, reading, task, &mut counts)?);
    }
    if counts.assumed > 0 {
        let ReplayCounts { assumed, replayed } = counts;
        let _ = fallible_eprintln!(rt, "uefi_audit: no locality is stated by {assumed} of {replayed} logs that were replayed; \
             PCR 0 starts at locality 0"
        );
    }
    Ok(status)
}

/// Does a task with the log in a file. Counts how PCR 0 starts, if the log is one of many.
fn do_task<R: Files + Input + Print + Eprint>(
    rt: &R,
    name: &str,
    reading: Reading,
    task: Task<'_>,
    counts: &mut ReplayCounts,
) -> Result<Status, Failure> {
    let Some(bytes) = file_bytes(rt, FileName::of(name)) else {
        return Ok(Status::Unread);
    };
    let log = open_log(name, bytes.as_slice(), reading)?;
    if let (Opened::Read(file), Task::Replay(asked)) = (&log, task) {
        if asked.is_one_of_many && file.is_replayed(reading.allow_left_over) {
            *counts = counts.with(file.is_locality_stated(asked.locality));
        }
    }
    task_report(log, reading, task)?.print(rt)
}

/// Does `diff` with the logs in two files.
fn compare_logs<R: Files + Input + Print + Eprint>(
    rt: &R,
    [old, new]: [&str; 2],
    asked: Compared,
    reading: Reading,
) -> Result<Status, Failure> {
    let old_bytes = file_bytes(rt, FileName::of(old));
    let new_bytes = file_bytes(rt, FileName::of(new));
    let (Some(old_bytes), Some(new_bytes)) = (old_bytes, new_bytes) else {
        return Ok(Status::Unread);
    };
    let old_log = open_log(old, old_bytes.as_slice(), reading)?;
    let new_log = open_log(new, new_bytes.as_slice(), reading)?;
    difference_report(old_log, new_log, reading, asked)?.print(rt)
}

/// Does `verify` with the log in a file, and the PCRs in another or in a folder.
fn verify_log<R: Files + Input + Print + Eprint>(
    rt: &R,
    asked: &Verification<'_>,
    registers: &str,
    reading: Reading,
) -> Result<Status, Failure> {
    let selections = selections_of(rt, asked.pcrs)?;
    let bytes = file_bytes(rt, FileName::of(asked.log));
    let held = held_pcrs(rt, FileName::of(registers));
    let (Some(bytes), Some(held)) = (bytes, held) else {
        return print_unjudged(rt, asked, NotJudged::Unread, Status::Unread);
    };
    if !is_coverage_stated(false, selections.as_slice()) {
        let name = ShownName(registers);
        let _ = fallible_eprintln!(rt, "uefi_audit: {name} chooses which banks are compared, unless --pcrs names them, as in sha256:0-7"
        );
    }
    let stated = StatedPcrs {
        log: asked.log,
        file: registers,
        pcrs: held.as_slice(),
        selections: selections.as_slice(),
        locality: asked.locality,
        format: asked.format,
    };
    let log = open_log(asked.log, bytes.as_slice(), reading)?;
    verify_report(log, reading, &stated)?.print(rt)
}

/// Prints in JSON why a log isn't judged, and returns this status.
fn print_unjudged<R: Print + Eprint>(
    rt: &R,
    asked: &Verification<'_>,
    why: NotJudged,
    status: Status,
) -> Result<Status, Failure> {
    let name = FileName::of(asked.log).as_str();
    let report = Report {
        text: unjudged_text(name, asked.format, why)?,
        messages: String::new(),
        status,
    };
    report.print(rt)
}

/// What `verify --quote` is given: the bytes of its files, and what its options state.
#[derive(Debug)]
struct QuoteInput {
    /// The bytes of the log.
    log: Vec<u8>,
    /// The bytes of the quote.
    message: Vec<u8>,
    /// The nonce that the quote was asked for with.
    nonce: Option<Vec<u8>>,
    /// The PCRs that are compared as well.
    held: Vec<HeldPcr>,
    /// The PCRs that are asked for.
    selections: Vec<PcrSelection>,
}

/// Reads what `verify --quote` is given; `None` if a file wasn't read, which standard error is told.
fn quote_input<R: Files + Input + Eprint>(
    rt: &R,
    asked: &Verification<'_>,
    quote: &AskedQuote<'_>,
) -> Result<Option<QuoteInput>, Failure> {
    let selections = required_pcrs(rt, asked.pcrs, quote.any_pcrs)?;
    let nonce = nonce_of(rt, quote.nonce)?;
    let log = file_bytes(rt, FileName::of(asked.log));
    let message = file_bytes(rt, FileName::of(quote.file));
    let held = held_beside(rt, asked.registers);
    let (Some(log), Some(message), Some(held)) = (log, message, held) else {
        return Ok(None);
    };
    Ok(Some(QuoteInput {
        log,
        message,
        nonce,
        held,
        selections,
    }))
}

/// Returns the quote of the bytes that were read.
fn received_in<'a>(
    quote: &AskedQuote<'_>,
    input: &'a QuoteInput,
) -> Result<ReceivedQuote<'a>, NotReceived> {
    match &input.nonce {
        Some(nonce) => received_quote(input.message.as_slice(), quote, Some(nonce.as_slice())),
        None => received_quote(input.message.as_slice(), quote, None),
    }
}

/// Does `verify` with the log in a file, the quote in another, and the PCRs in a third or in a folder,
/// if there is one.
fn verify_quote<'a, R: Files + Input + Print + Eprint>(
    rt: &R,
    asked: &Verification<'a>,
    quote: &AskedQuote<'a>,
    reading: Reading,
) -> Result<Status, Failure> {
    let Some(input) = quote_input(rt, asked, quote)? else {
        return print_unjudged(rt, asked, NotJudged::Unread, Status::Unread);
    };
    let input = &input;
    let received = match received_in(quote, input) {
        Ok(received) => received,
        Err(why) => {
            let status = tell_not_received(rt, quote.file, why);
            return print_unjudged(rt, asked, why.reason(), status);
        }
    };
    let check = QuoteCheck {
        file: quote.file,
        received,
        registers: StatedPcrs {
            log: asked.log,
            file: asked.registers.unwrap_or(""),
            pcrs: input.held.as_slice(),
            selections: input.selections.as_slice(),
            locality: asked.locality,
            format: asked.format,
        },
    };
    let log = open_log(asked.log, input.log.as_slice(), reading)?;
    quote_report(log, reading, &check)?.print(rt)
}

/// Returns the PCRs that are compared beside a quote: none if no file with them is named. `None` if
/// they weren't read, which standard error is told.
fn held_beside<R: Files + Input + Eprint>(
    rt: &R,
    registers: Option<&str>,
) -> Option<Vec<HeldPcr>> {
    match registers {
        Some(word) => held_pcrs(rt, FileName::of(word)),
        None => Some(Vec::new()),
    }
}

/// Returns the nonce that `--nonce` states, or `None` without it.
fn nonce_of<R: Eprint>(
    rt: &R,
    digits: Option<&str>,
) -> Result<Option<Vec<u8>>, Failure> {
    let Some(digits) = digits else {
        return Ok(None);
    };
    let nonce = match crate::hex::decode(digits) {
        Ok(nonce) => nonce,
        Err(FromHexError::OutOfMemory) => return Err(Failure::Memory),
        Err(_) => return Err(wrong_nonce(rt)),
    };
    // A quote that was made without a nonce has an empty one, and may be old.
    if nonce.is_empty() {
        return Err(wrong_nonce(rt));
    }
    Ok(Some(nonce))
}

/// Tells on standard error what a nonce is, and returns why the program stops.
fn wrong_nonce<R: Eprint>(rt: &R) -> Failure {
    let _ = fallible_eprintln!(rt, "uefi_audit: --nonce takes pairs of hex digits");
    Failure::Arguments
}

/// Tells on standard error why a log isn't compared with a quote, and returns the status that
/// follows.
fn tell_not_received<R: Eprint>(rt: &R, path: &str, why: NotReceived) -> Status {
    let name = ShownName(path);
    let _ = fallible_eprintln!(rt, "uefi_audit: {name}: {why}");
    why.status()
}

/// Returns the PCRs that `--pcrs` selects; none without it.
fn selections_of<R: Eprint>(
    rt: &R,
    pcrs: Option<&str>,
) -> Result<Vec<PcrSelection>, Failure> {
    let Some(text) = pcrs else {
        return Ok(Vec::new());
    };
    let Some(selections) = selections_in(text.as_bytes())? else {
        let _ = fallible_eprintln!(rt, "uefi_audit: --pcrs takes PCRs from 0 to 23, such as 0-7,14 or sha256:0,7"
        );
        return Err(Failure::Arguments);
    };
    Ok(selections)
}

/// Returns the PCRs that a quote has to cover: those that `--pcrs` selects, each in a bank, or none by
/// `--any-pcrs`.
fn required_pcrs<R: Eprint>(
    rt: &R,
    pcrs: Option<&str>,
    any_pcrs: bool,
) -> Result<Vec<PcrSelection>, Failure> {
    let selections = selections_of(rt, pcrs)?;
    if !is_coverage_stated(any_pcrs, selections.as_slice()) {
        let _ = fallible_eprintln!(rt, "uefi_audit: --quote takes --pcrs with a bank for each selection, such as sha256:0-7, or --any-pcrs"
        );
        return Err(Failure::Arguments);
    }
    Ok(selections)
}

/// Returns whether it is stated what has to be covered: PCRs, or any; and each selection names a bank.
fn is_coverage_stated(any_pcrs: bool, selections: &[PcrSelection]) -> bool {
    (any_pcrs || !selections.is_empty()) && name_banks(selections)
}

/// Returns whether each selection names a bank.
fn name_banks(selections: &[PcrSelection]) -> bool {
    selections.iter().all(|it| it.bank().is_some())
}
