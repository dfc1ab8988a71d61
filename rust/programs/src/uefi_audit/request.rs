// @generated from proved source. It is not edited.

use crate::clap::ArgMatches;
use uefi_formats::pcr::Bank;
use crate::uefi_audits::naming::bank_named;
use uefi_formats::proto::tcg::LastEntry;

/// What the arguments ask for.
#[derive(Clone, Copy, Debug)]
pub(crate) enum Request<'m, 'a> {
    /// `events LOG.. [--text]`: the events of each log.
    Events(&'m [&'a str], Format),
    /// `replay LOG.. [--bank B] [--locality N] [--json]`: the PCRs that each log leads to.
    Replay(&'m [&'a str], Option<Bank>, Option<u8>, Format),
    /// `verify LOG --registers FILE|--quote FILE ..`: whether they are those of a TPM.
    Verify(Verification<'a>),
    /// `diff OLD NEW [--bank B] [--digests-only] [--json]`: how the events of the two logs differ.
    Diff(&'a str, &'a str, Compared),
    /// `check LOG.. [--pcrs PCRS|--quote FILE] [--json]`: whether each event's digests are the hash of
    /// what its type measures.
    Check(&'m [&'a str], AskedCoverage<'a>, Format),
}

/// Which PCRs are known to hold what the events of a log extended: all if neither is named. `clap` makes
/// sure that one of them isn't.
#[derive(Clone, Copy, Debug)]
pub(crate) struct AskedCoverage<'a> {
    /// These, each in a bank (`--pcrs`).
    pub pcrs: Option<&'a str>,
    /// Those that the quote in this file covers (`--quote`).
    pub quote: Option<&'a str>,
}

/// What `verify` compares.
#[derive(Clone, Copy, Debug)]
pub(crate) struct Verification<'a> {
    /// The file with the log.
    pub log: &'a str,
    /// The file or folder with the PCRs of the TPM (`--registers`).
    pub registers: Option<&'a str>,
    /// The quote of the TPM (`--quote`).
    pub quote: Option<AskedQuote<'a>>,
    /// Which PCRs are compared, and have to be covered (`--pcrs`); all without it.
    pub pcrs: Option<&'a str>,
    /// The locality at which the TPM was started (`--locality`).
    pub locality: Option<u8>,
    /// How the result is printed.
    pub format: Format,
}

/// A quote with which a log is compared.
#[derive(Clone, Copy, Debug)]
pub(crate) struct AskedQuote<'a> {
    /// The file with the quote.
    pub file: &'a str,
    /// The nonce that it was asked for with, in hex (`--nonce`).
    pub nonce: Option<&'a str>,
    /// Whether it may have any nonce (`--any-nonce`).
    pub any_nonce: bool,
    /// Whether it may cover any PCRs (`--any-pcrs`).
    pub any_pcrs: bool,
    /// The hash function of its digest (`--quote-hash`); without it, the digest's length says it.
    pub hash: Option<Bank>,
}

/// What of two logs is compared, and how the result is printed.
#[derive(Clone, Copy, Debug)]
pub(crate) struct Compared {
    /// The bank whose digests are compared; without one, those of all banks that both logs have.
    pub bank: Option<Bank>,
    /// Whether events are paired and compared by their digests alone (`--digests-only`).
    pub digests_only: bool,
    /// How the result is printed.
    pub format: Format,
}

/// How a result is printed.
#[derive(Clone, Copy, PartialEq, Eq, Debug)]
pub(crate) enum Format {
    /// As text.
    Text,
    /// As JSON.
    Json,
}

/// How logs are read.
#[derive(Clone, Copy, Debug)]
pub(crate) struct Reading {
    /// `--last-entry N|none`.
    pub last_entry: LastEntry,
    /// `--allow-left-over`.
    pub allow_left_over: bool,
    /// `--max-rows N`: how many algorithms the table in a log's header may have.
    pub max_rows: u32,
}

/// How many rows a table may have without `--max-rows`. Firmware writes one to five.
const MAX_ROWS: u32 = 256;

/// Returns what the matches of a command ask for, by the command's name; `None` if they ask for
/// nothing that the program knows.
///
/// Which words lead to which matches is what `clap` promises. It also makes sure that `--locality`
/// is a number below 256, and `--max-rows` one below 2^32.
pub(crate) fn request_of<'m, 'a>(
    name: &str,
    matches: &'m ArgMatches<'a>,
) -> Option<(Request<'m, 'a>, Reading)> {
    let reading = reading_of(matches)?;
    let request = request_named(name, matches)?;
    Some((request, reading))
}

/// Returns the request of the matches of the command of this name, if they ask for one.
fn request_named<'m, 'a>(name: &str, matches: &'m ArgMatches<'a>) -> Option<Request<'m, 'a>> {
    match name {
        "events" => events_of(matches),
        "replay" => replay_of(matches),
        "verify" => verify_of(matches),
        "diff" => diff_of(matches),
        "check" => check_of(matches),
        _ => None,
    }
}

/// Returns what the matches of `events` ask for.
fn events_of<'m, 'a>(matches: &'m ArgMatches<'a>) -> Option<Request<'m, 'a>> {
    let logs = matches.get_strs("logs")?;
    let format = if matches.get_flag("text") {
        Format::Text
    } else {
        Format::Json
    };
    Some(Request::Events(logs, format))
}

/// Returns what the matches of `replay` ask for.
fn replay_of<'m, 'a>(matches: &'m ArgMatches<'a>) -> Option<Request<'m, 'a>> {
    let logs = matches.get_strs("logs")?;
    let bank = bank_of(matches, "bank")?;
    Some(Request::Replay(logs, bank, locality_of(matches), format_of(matches)))
}

/// Returns what the matches of `verify` ask for.
fn verify_of<'m, 'a>(matches: &'m ArgMatches<'a>) -> Option<Request<'m, 'a>> {
    let log = matches.get_str("log")?;
    let quote = quote_of(matches)?;
    Some(Request::Verify(Verification {
        log,
        registers: matches.get_str("registers"),
        quote,
        pcrs: matches.get_str("pcrs"),
        locality: locality_of(matches),
        format: format_of(matches),
    }))
}

/// Returns the quote that the matches of `verify` ask for, if they ask for one; `None` if they name
/// no hash function.
fn quote_of<'a>(matches: &ArgMatches<'a>) -> Option<Option<AskedQuote<'a>>> {
    let Some(file) = matches.get_str("quote") else {
        return Some(None);
    };
    let hash = bank_of(matches, "quote-hash")?;
    Some(Some(AskedQuote {
        file,
        nonce: matches.get_str("nonce"),
        any_nonce: matches.get_flag("any-nonce"),
        any_pcrs: matches.get_flag("any-pcrs"),
        hash,
    }))
}

/// Returns what the matches of `diff` ask for.
fn diff_of<'m, 'a>(matches: &'m ArgMatches<'a>) -> Option<Request<'m, 'a>> {
    let old = matches.get_str("old")?;
    let new = matches.get_str("new")?;
    let asked = compared_of(matches)?;
    Some(Request::Diff(old, new, asked))
}

/// Returns what of two logs the matches of `diff` ask for; `None` if they name no bank.
fn compared_of(matches: &ArgMatches<'_>) -> Option<Compared> {
    let bank = bank_of(matches, "bank")?;
    Some(Compared {
        bank,
        digests_only: matches.get_flag("digests-only"),
        format: format_of(matches),
    })
}

/// Returns what the matches of `check` ask for.
fn check_of<'m, 'a>(matches: &'m ArgMatches<'a>) -> Option<Request<'m, 'a>> {
    let logs = matches.get_strs("logs")?;
    let covered = AskedCoverage {
        pcrs: matches.get_str("pcrs"),
        quote: matches.get_str("quote"),
    };
    Some(Request::Check(logs, covered, format_of(matches)))
}

/// Returns the locality that a command's matches ask for, if they ask for one.
fn locality_of(matches: &ArgMatches<'_>) -> Option<u8> {
    matches.get_one::<u8>("locality")
}

/// Returns how a command's matches ask for logs to be read; `None` if `--last-entry` has a word
/// that is neither a number nor `none`.
pub(crate) fn reading_of(matches: &ArgMatches<'_>) -> Option<Reading> {
    let last_entry = last_entry_of(matches)?;
    let allow_left_over = matches.get_flag("allow-left-over");
    Some(Reading {
        last_entry,
        allow_left_over,
        max_rows: max_rows_of(matches),
    })
}

/// Returns how many rows a command's matches allow a table.
fn max_rows_of(matches: &ArgMatches<'_>) -> u32 {
    matches.get_one::<u32>("max-rows").unwrap_or(MAX_ROWS)
}

/// Returns the last entry that a command's matches ask for; `None` if `--last-entry` has a word
/// that is neither a number nor `none`.
fn last_entry_of(matches: &ArgMatches<'_>) -> Option<LastEntry> {
    let Some(word) = matches.get_str("last-entry") else {
        return Some(LastEntry::Unknown);
    };
    if word == "none" {
        return Some(LastEntry::Empty);
    }
    match decimal(word) {
        Some(offset) => Some(LastEntry::At(offset)),
        None => None,
    }
}

/// Returns the bank that the option `id` of a command's matches names, if it is there; `None` if it
/// names no bank.
fn bank_of(matches: &ArgMatches<'_>, id: &str) -> Option<Option<Bank>> {
    let Some(name) = matches.get_str(id) else {
        return Some(None);
    };
    let bank = bank_named(name)?;
    Some(Some(bank))
}

/// Returns the format that a command's matches ask for.
fn format_of(matches: &ArgMatches<'_>) -> Format {
    if matches.get_flag("json") {
        Format::Json
    } else {
        Format::Text
    }
}

/// Returns the number that the word is in decimal.
fn decimal(word: &str) -> Option<usize> {
    // `parse` accepts a plus sign, which is no digit.
    if word.starts_with('+') {
        return None;
    }
    word.parse::<usize>().ok()
}
