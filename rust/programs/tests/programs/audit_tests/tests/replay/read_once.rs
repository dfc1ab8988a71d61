// @generated from proved source. It is not edited.

use crate::pcr_replay::entries::{has_measured, is_active, replay, restarted, start_of, startup_locality};
use crate::pcr_replay::{Bank, Pcrs, ReadLog, Start};
use crate::support::test::Fail;
use crate::test_support::samples::MACHINE_LOG;
use crate::test_support::{Refusing, bytes, holds, takes_memory};
use crate::uefi_tcg::{LastEntry, Log, LogEntry, LogError};

/// Returns whether the PCRs of two replays hold the same.
fn are_same(one: &Pcrs, other: &Pcrs) -> bool {
    one.outcomes() == other.outcomes()
}

/// Checks that what was read of a log is what the log has.
fn check_parts(read: &ReadLog<'_>, log: Log<'_>) -> Result<(), Fail> {
    holds("the padding", read.padding() == log.padding())?;
    holds("the bytes left over", read.left_over() == log.left_over())?;
    holds("the size of a UINTN", read.uintn_size() == log.uintn_size())
}

/// Checks that what was read of a log leads to what the log does.
fn check(log: Log<'_>) -> Result<(), Fail> {
    let read = ReadLog::new(log)?;
    check_parts(&read, log)?;
    let entries = read.entries();
    let (start, locality) = (start_of(entries), startup_locality(entries));
    holds("the start", start == Start::of(&log))?;
    holds(
        "the locality",
        locality == crate::pcr_replay::startup_locality(&log),
    )?;
    let is_so = has_measured(entries) == crate::pcr_replay::has_measured(&log);
    holds("whether something was measured", is_so)?;
    for bank in &Bank::ALL {
        check_bank(entries, &log, *bank, &start)?;
    }
    Ok(())
}

/// Checks that events lead to what their log leads to in a bank.
fn check_bank(
    entries: &[LogEntry<'_>],
    log: &Log<'_>,
    bank: Bank,
    start: &Start,
) -> Result<(), Fail> {
    let active = crate::pcr_replay::is_active(log, bank);
    holds(
        "whether a bank is active",
        is_active(entries, bank) == active,
    )?;
    let pcrs = replay(entries, bank, start);
    holds("the PCRs", are_same(&pcrs, &crate::pcr_replay::replay(log, bank)))?;
    let at_3 = Start::at(3);
    let found = restarted(&pcrs, entries, bank, &at_3);
    let wanted = crate::pcr_replay::replay_from(log, bank, &at_3);
    holds("the PCRs at locality 3", are_same(&found, &wanted))
}

/// A log of an event of PCR 24, which extends none.
const OTHER_PCR: &str = "18000000 08000000 aaaaaaaaaaaaaaaaaaaaaaaaaaaaaaaaaaaaaaaa 00000000";

#[test]
fn what_was_read_leads_to_what_the_log_does() -> Result<(), Fail> {
    let other = bytes(OTHER_PCR)?;
    check(Log::new(other.as_slice(), LastEntry::Unknown))?;
    let log = bytes(MACHINE_LOG)?;
    check(Log::new(log.as_slice(), LastEntry::Unknown))?;
    check(Log::new(&[], LastEntry::Empty))?;
    check(Log::new(&[0; 40], LastEntry::Unknown))
}

#[test]
fn a_log_with_more_rows_than_are_allowed_is_not_read() -> Result<(), Fail> {
    let bytes = bytes(MACHINE_LOG)?;
    let Ok(log) = Log::read_with(bytes.as_slice(), LastEntry::Unknown, 4) else {
        return Err(Fail::new("the log isn't whole"));
    };
    let read = ReadLog::new(log)?;
    holds("the header", read.header().is_some())?;
    holds("the end", read.end() == bytes.len())?;
    let error = Log::read_with(bytes.as_slice(), LastEntry::Unknown, 3).err();
    holds("three rows", error == Some(LogError::TooManyAlgorithms(4)))
}

/// Returns how many events a log has, if no request is refused.
fn count_read(log: Log<'_>) -> Option<usize> {
    Some(ReadLog::new(log).ok()?.entries().len())
}

#[test]
fn reading_runs_out_of_memory_at_each_request() -> Result<(), Fail> {
    let bytes = bytes(MACHINE_LOG)?;
    let log = Log::new(bytes.as_slice(), LastEntry::Unknown);
    let count = log.entries().count();
    takes_memory(&count, || count_read(log))
}
