//! What plain Rust expects a run of the program `uefi_audit` to end with: its PCRs, its events and
//! what their data say, its JSON, which digests are the hash of what was measured, how two logs
//! differ, and whether a log leads to a quote, over the plain [`readers`](crate::readers) of logs and the hash functions of OpenSSL.

#[macro_use]
mod json;
mod block;
mod check;
mod diff;
mod events;
mod log;
mod made_quote;
mod quote;
mod replay;

use crate::input::Input;
use crate::program::{Ending, other_name};
use crate::random::Random;
use log::Log;

/// How many rows a table may have.
const MAX_ROWS: usize = 256;
/// The status of a run over a log that can't be judged.
const UNJUDGED: i32 = 4;

/// The commands, each with its words. Without the second word of the first, most mutations would be
/// refused for the bytes that they leave over. Those whose names begin with `whole` are without.
pub const COMMANDS: [(&str, &[&str]); 11] = [
    ("replay", &["replay", "--allow-left-over"]),
    ("whole", &["replay"]),
    ("json", &["replay", "--json", "--allow-left-over"]),
    ("events", &["events", "--allow-left-over"]),
    ("blocks", &["events", "--text", "--allow-left-over"]),
    ("check", &["check", "--allow-left-over"]),
    ("diff", &["diff", "--allow-left-over"]),
    ("whole_diff", &["diff"]),
    ("quote", &["verify", "--any-pcrs", "--any-nonce", "--allow-left-over"]),
    ("quote_json", &["verify", "--any-pcrs", "--nonce=00112233", "--json", "--allow-left-over"]),
    ("quote_nonce", &["verify", "--any-pcrs", "--nonce=00112233", "--allow-left-over"]),
];
/// The nonce that quotes are asked for with.
pub const NONCE: [u8; 4] = [0x00, 0x11, 0x22, 0x33];

/// Whether a command takes two files.
pub fn takes_two(command: &str) -> bool {
    matches!(command, "diff" | "whole_diff") || takes_quote(command)
}

/// Whether the second file of a command is a quote.
pub fn takes_quote(command: &str) -> bool {
    command.starts_with("quote")
}

/// A quote of what a log in these bytes leads to, or of something near it.
pub fn made_quote(random: &mut Random, bytes: &[u8], last_entry: Option<Option<usize>>) -> Vec<u8> {
    made_quote::made(random, &Log::read("", bytes, last_entry))
}

/// The words of a run, after the program's name; the third word of the input is the last entry.
pub fn words(command: &str, third_word: Option<&[u8]>, file: &str) -> Vec<Vec<u8>> {
    let (_, first) = COMMANDS.iter().find(|it| it.0 == command).expect("a command of the program");
    let last_entry = third_word.map(|word| if word == b"-" { b"none" } else { word });
    let last_entry = last_entry.map(|word| [b"--last-entry=", word].concat());
    let option = if takes_quote(command) { "--quote=" } else { "" };
    let other = takes_two(command).then(|| format!("{option}{}", other_name(file)).into_bytes());
    let first = first.iter().map(|word| Vec::from(*word));
    first.chain(last_entry).chain([Vec::from(file)]).chain(other).collect()
}

/// What a run ends with, whose file has this name.
pub fn ending(command: &str, input: &Input, given: Option<Option<usize>>, file: &str) -> Ending {
    let (mut end, other_name) = (Ending::default(), other_name(file));
    let log = Log::read(file, &input.bytes, given);
    if takes_quote(command) {
        is_read(&log, true, &mut end);
        let asked = (command != "quote").then_some(&NONCE[..]);
        let is_json = command == "quote_json";
        return quote::ending(&log, &other_name, &input.other, asked, is_json, end);
    }
    let other = Log::read(&other_name, &input.other, given);
    let mut is_read = |log| is_read(log, !command.starts_with("whole"), &mut end);
    if [is_read(&log), !takes_two(command) || is_read(&other)].contains(&false) {
        return end;
    }
    let output = match command {
        "events" => log.events.iter().map(events::json_line).collect(),
        "blocks" => log.events.iter().map(events::head).collect(),
        "check" => check::lines(&log, &mut end),
        "json" => replay::json_line(&log, &replay::replays(&log, &mut end)),
        "diff" | "whole_diff" => diff::lines(&log, &other, &mut end),
        _ => replay::listing(&replay::replays(&log, &mut end)),
    };
    Ending { output: output.into_bytes(), ..end }
}

/// Tells standard error something of a log, from which a status follows.
fn tell(end: &mut Ending, log: &Log<'_>, status: i32, what: &str) {
    end.message.extend(format!("{}: {what}\n", log.name).bytes());
    end.status = end.status.max(status);
}

/// Whether a log's events are read, of which standard error is told.
fn is_read(log: &Log<'_>, allows_left_over: bool, end: &mut Ending) -> bool {
    let (rows, rest, at) = (log.algorithms.len(), log.rest, log.end);
    if rows > MAX_ROWS {
        let most = format!("and at most {MAX_ROWS} are read (--max-rows)");
        tell(end, log, UNJUDGED, &format!("its header has {rows} algorithms, {most}"));
        return false;
    }
    if let Some(fault) = log.header_fault() {
        tell(end, log, 0, &format!("{fault}, so that it is read as version 1"));
    }
    let is_read = rest == 0 || log.is_padded || allows_left_over;
    if rest > 0 {
        let what = if log.is_padded { "of padding" } else { "are left over" };
        let status = if is_read { 0 } else { UNJUDGED };
        tell(end, log, status, &format!("{rest} bytes {what} at offset {at}"));
    }
    if is_read && log.measured().count() == 0 {
        let is_empty = at == 0 && rest == 0;
        let what = if is_empty { "the log is empty" } else { "nothing was measured" };
        tell(end, log, UNJUDGED, what);
    }
    is_read
}
