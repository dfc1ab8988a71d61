// @generated from proved source. It is not edited.

use crate::audit_text::text::push_change;
use crate::pcr_replay::ReadLog;
use crate::support::alloc::AllocError;
use crate::support::test::Fail;
use crate::test_support::{bytes, same_text};
use crate::uefi_audits::diff::numbered_entries;
use crate::uefi_tcg::{AlgorithmId, LastEntry, Log};

/// Two logs of one event each, and what changed between the events, where `uefi_audit diff` compares
/// them otherwise: variables of two names aren't paired, and digests of banks of one log aren't
/// compared.
#[derive(Debug)]
struct Row {
    old: &'static str,
    new: &'static str,
    change: &'static str,
}

const ROWS: [Row; 2] = [
    // A variable of another name with the same value: the data differ.
    Row {
        old: "0700000001000080aaaaaaaaaaaaaaaaaaaaaaaaaaaaaaaaaaaaaaaa2300000061dfe4\
              8bca93d211aa0d00e098032b8c01000000000000000100000000000000610001",
        new: "0700000001000080aaaaaaaaaaaaaaaaaaaaaaaaaaaaaaaaaaaaaaaa2300000061dfe4\
              8bca93d211aa0d00e098032b8c01000000000000000100000000000000620001",
        change: "from byte 32: 610001 -> 620001",
    },
    // A digest more.
    Row {
        old: "0100000008000000aaaaaaaaaaaaaaaaaaaaaaaaaaaaaaaaaaaaaaaa00000000",
        new: "0000000003000000000000000000000000000000000000000000000025000000537065\
              63204944204576656e74303300000000000002000202000000040014000b0020000001\
              00000008000000020000000400aaaaaaaaaaaaaaaaaaaaaaaaaaaaaaaaaaaaaaaa0b00\
              cccccccccccccccccccccccccccccccccccccccccccccccccccccccccccccccc000000\
              00",
        change: "sha256 none -> ccccccccccccccccccccccccccccccccccccccccccccccccccccccc\
              ccccccccc",
    },
];

/// Returns what changed between the first events of two logs.
fn change_of(old: &ReadLog<'_>, new: &ReadLog<'_>) -> Result<String, AllocError> {
    let algorithms = [AlgorithmId::SHA1, AlgorithmId::SHA256];
    let olds = numbered_entries(old)?;
    let news = numbered_entries(new)?;
    let mut text = String::new();
    if let (Some(old), Some(new)) = (olds.first(), news.first()) {
        push_change(&mut text, &algorithms, old, new)?;
    }
    Ok(text)
}

/// Checks a row.
fn check(row: &Row) -> Result<(), Fail> {
    let old_bytes = bytes(row.old)?;
    let new_bytes = bytes(row.new)?;
    let old = ReadLog::new(Log::new(old_bytes.as_slice(), LastEntry::Unknown))?;
    let new = ReadLog::new(Log::new(new_bytes.as_slice(), LastEntry::Unknown))?;
    let change = change_of(&old, &new)?;
    same_text(row.new, change.as_str(), row.change)
}

#[test]
fn a_change_of_an_event_is_told_in_these_words() -> Result<(), Fail> {
    for row in &ROWS {
        check(row)?;
    }
    Ok(())
}
