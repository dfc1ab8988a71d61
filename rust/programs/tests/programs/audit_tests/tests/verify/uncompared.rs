// @generated from proved source. It is not edited.

use crate::audit_text::text::push_uncompared;
use crate::pcr_replay::ReadLog;
use crate::support::test::Fail;
use crate::test_support::{Refusing, bytes, takes_memory};
use crate::uefi_audits::verify::{HeldPcr, held_in_text, named_pcrs, uncompared_pcrs};
use crate::uefi_tcg::{LastEntry, Log};

/// PCR 1 of SHA-1.
const HELD: &str = "  sha1:\n    1 : 0xbbbbbbbbbbbbbbbbbbbbbbbbbbbbbbbbbbbbbbbb\n";

/// A log of PCR 1, 0, 23, 24, and 0 again, and of PCR 3 in an event that extends nothing.
const LOG: &str =
    "00000000030000000000000000000000000000000000000000000000210000005370656320494420 \
    4576656e7430330000000000000200020100000004001400000100000008000000010000000400aa \
    aaaaaaaaaaaaaaaaaaaaaaaaaaaaaaaaaaaaaa000000000000000008000000010000000400aaaaaa \
    aaaaaaaaaaaaaaaaaaaaaaaaaaaaaaaaaa000000001700000008000000010000000400aaaaaaaaaa \
    aaaaaaaaaaaaaaaaaaaaaaaaaaaaaa000000001800000008000000010000000400aaaaaaaaaaaaaa \
    aaaaaaaaaaaaaaaaaaaaaaaaaa000000000300000003000000010000000400000000000000000000 \
    0000000000000000000000000000000000000008000000010000000400aaaaaaaaaaaaaaaaaaaaaa \
    aaaaaaaaaaaaaaaaaa00000000";

/// Returns the held PCRs.
fn held() -> Result<Vec<HeldPcr>, Fail> {
    match held_in_text(HELD.as_bytes()) {
        Ok(held) => Ok(held.pcrs),
        Err(_) => Err(Fail::new("the held PCRs can't be read")),
    }
}

/// Returns how many PCRs aren't compared, after their line, if no request is refused.
fn count(read: &ReadLog<'_>, held: &[HeldPcr]) -> Option<usize> {
    let compared = named_pcrs(held).ok()?;
    let pcrs = uncompared_pcrs(read.entries(), compared.as_slice()).ok()?;
    let mut messages = String::new();
    push_uncompared(&mut messages, "a log", pcrs.as_slice()).ok()?;
    Some(pcrs.len())
}

#[test]
fn they_run_out_of_memory_at_each_request() -> Result<(), Fail> {
    let input = bytes(LOG)?;
    let read = ReadLog::new(Log::new(input.as_slice(), LastEntry::Unknown))?;
    let held = held()?;
    takes_memory(&2, || count(&read, held.as_slice()))
}
