// @generated from proved source. It is not edited.

use crate::audit_text::text::push_verdict;
use crate::pcr_replay::ReadLog;
use crate::support::test::Fail;
use crate::test_support::{bytes, same_text};
use crate::uefi_audits::verify::{Verdict, held_in_text};
use crate::uefi_tcg::{LastEntry, Log};

/// A log, the locality at which PCR 0 starts, and the PCRs that a TPM held.
#[derive(Debug)]
struct Row {
    log: &'static str,
    locality: u8,
    held: &'static str,
    /// The lines, of a log named `a.log`.
    lines: &'static str,
    differing: usize,
    undetermined: usize,
}

/// What `uefi_audit verify` refuses before: a file without PCRs, and a log without events.
const ROWS: [Row; 2] = [
    // None is held.
    Row {
        log: "0000000008000000aaaaaaaaaaaaaaaaaaaaaaaaaaaaaaaaaaaaaaaa00000000010000\
         0008000000bbbbbbbbbbbbbbbbbbbbbbbbbbbbbbbbbbbbbbbb00000000",
        locality: 0,
        held: "",
        lines: "a.log: agrees:  (PCR 0 starts at locality 0)\n",
        differing: 0,
        undetermined: 0,
    },
    // No events.
    Row {
        log: "",
        locality: 4,
        held: "  sha1:\n    0 : 0x0000000000000000000000000000000000000004\n    1 : 0\
         x0000000000000000000000000000000000000000\n  sha512:\n    23: 0x000000\
         0000000000000000000000000000000000000000000000000000000000000000000000\
         0000000000000000000000000000000000000000000000000000\n",
        lines: "a.log: agrees: sha1: 0-1; sha512: 23 (PCR 0 starts at locality 4)\n",
        differing: 0,
        undetermined: 0,
    },
];

/// Returns the verdict on PCRs that a TPM held, and appends its lines.
fn verdict(
    text: &mut String,
    log: &[u8],
    locality: u8,
    held: &str,
) -> Result<Verdict, Fail> {
    let Ok(held) = held_in_text(held.as_bytes()) else {
        return Err(Fail::new("the held PCRs can't be read"));
    };
    let pcrs = held.pcrs.as_slice();
    let read = ReadLog::new(Log::new(log, LastEntry::Unknown))?;
    let verdict = Verdict::new(read.entries(), pcrs, Some(locality))?;
    push_verdict(text, "a.log", pcrs, &verdict)?;
    Ok(verdict)
}

/// Checks a row.
fn check(row: &Row) -> Result<(), Fail> {
    let log = bytes(row.log)?;
    let mut text = String::new();
    let verdict = verdict(&mut text, log.as_slice(), row.locality, row.held)?;
    same_text(row.log, text.as_str(), row.lines)?;
    let (differing, undetermined) = (verdict.differing, verdict.undetermined);
    if differing != row.differing || undetermined != row.undetermined {
        return Err(Fail::new(format_args!(
            "{differing} differ and {undetermined} are undetermined: {}",
            row.lines
        )));
    }
    if verdict.is_agreement() != (differing == 0 && undetermined == 0) {
        return Err(Fail::new("the verdict isn't what its counts say"));
    }
    Ok(())
}

#[test]
fn pcrs_agree_or_each_that_does_not_has_its_line() -> Result<(), Fail> {
    for row in &ROWS {
        check(row)?;
    }
    Ok(())
}
