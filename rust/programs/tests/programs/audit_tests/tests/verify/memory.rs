// @generated from proved source. It is not edited.

use crate::audit_text::text::push_verdict;
use crate::pcr_replay::ReadLog;
use crate::support::test::Fail;
use crate::test_support::{Refusing, bytes, takes_memory};
use crate::uefi_audits::verify::{HeldPcr, Verdict, held_in_text};
use crate::uefi_tcg::{LastEntry, Log, LogEntry};

/// A log of version 1 that states no locality: an event of PCR 0, and one of PCR 1.
const LOG: &str = "00000000 08000000 aaaaaaaaaaaaaaaaaaaaaaaaaaaaaaaaaaaaaaaa 00000000 \
    01000000 08000000 bbbbbbbbbbbbbbbbbbbbbbbbbbbbbbbbbbbbbbbb 00000000";

/// PCRs that a TPM held: PCR 0 as it starts at locality 4, and PCR 1 that disagrees.
const HELD: &str = "  sha1:\n    0 : 0xdec09ba74376aa583c045541848be591f3452571\n    1 : 0\
    xaaaaaaaaaaaaaaaaaaaaaaaaaaaaaaaaaaaaaaaa\n";

/// Returns how many PCRs disagree, after their lines, if no request is refused.
fn disagreeing(
    entries: &[LogEntry<'_>],
    held: &[HeldPcr],
) -> Option<usize> {
    let verdict = Verdict::new(entries, held, None).ok()?;
    let mut text = String::new();
    push_verdict(&mut text, "a.log", held, &verdict).ok()?;
    Some(verdict.differing)
}

#[test]
fn a_verdict_runs_out_of_memory_at_each_request() -> Result<(), Fail> {
    let Ok(held) = held_in_text(HELD.as_bytes()) else {
        return Err(Fail::new("the held PCRs can't be read"));
    };
    let input = bytes(LOG)?;
    let read = ReadLog::new(Log::new(input.as_slice(), LastEntry::Unknown))?;
    let pcrs = held.pcrs.as_slice();
    takes_memory(&1, || disagreeing(read.entries(), pcrs))
}
