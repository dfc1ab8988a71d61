// @generated from proved source. It is not edited.

use crate::support::fallible::*;

use super::logs::{outcome_text, pcrs_text};
use crate::pcr_replay::{Bank, is_active, replay};
use crate::support::test::Fail;
use crate::test_support::each_shows;
use crate::uefi_tcg::{LastEntry, Log, PcrIndex};

/// Logs, the banks that are active, and PCR 1 of SHA-256, by which an event has no digest of an
/// inactive bank.
const BANKS: [[&str; 2]; 6] = [
    // SHA-1 is active, and SHA-256 is not.
    [
        "00000000030000000000000000000000000000000000000000000000250000005370656320494420 \
        4576656e74303300000000000002000202000000040014000b002000000100000008000000010000 \
        000400aaaaaaaaaaaaaaaaaaaaaaaaaaaaaaaaaaaaaaaa00000000",
        "Sha1 0@69:NoDigest",
    ],
    // Both are active.
    [
        "00000000030000000000000000000000000000000000000000000000250000005370656320494420 \
        4576656e74303300000000000002000202000000040014000b002000000100000008000000020000 \
        000400aaaaaaaaaaaaaaaaaaaaaaaaaaaaaaaaaaaaaaaa0b00aaaaaaaaaaaaaaaaaaaaaaaaaaaaaa \
        aaaaaaaaaaaaaaaaaaaaaaaaaaaaaaaaaa00000000",
        "Sha1 Sha256 9ef814b42fa0be12d197c44d3e8e03441a4b1118237658368ba1351090e556ed",
    ],
    // An event that extends nothing activates no bank, nor does one of PCR 24.
    [
        "00000000030000000000000000000000000000000000000000000000250000005370656320494420 \
        4576656e74303300000000000002000202000000040014000b002000000100000003000000020000 \
        000400aaaaaaaaaaaaaaaaaaaaaaaaaaaaaaaaaaaaaaaa0b00aaaaaaaaaaaaaaaaaaaaaaaaaaaaaa \
        aaaaaaaaaaaaaaaaaaaaaaaaaaaaaaaaaa000000001800000008000000020000000400aaaaaaaaaa \
        aaaaaaaaaaaaaaaaaaaaaaaaaaaaaa0b00aaaaaaaaaaaaaaaaaaaaaaaaaaaaaaaaaaaaaaaaaaaaaa \
        aaaaaaaaaaaaaaaaaa00000000",
        "0000000000000000000000000000000000000000000000000000000000000000",
    ],
    // A digest of another length does.
    [
        "00000000030000000000000000000000000000000000000000000000250000005370656320494420 \
        4576656e74303300000000000002000202000000040014000b000200000100000008000000020000 \
        000400aaaaaaaaaaaaaaaaaaaaaaaaaaaaaaaaaaaaaaaa0b00616200000000",
        "Sha1 Sha256 0@69:OtherLength",
    ],
    // SM3 beside SHA-1.
    [
        "00000000030000000000000000000000000000000000000000000000250000005370656320494420 \
        4576656e743033000000000000020002020000000400140012002000000100000008000000020000 \
        000400aaaaaaaaaaaaaaaaaaaaaaaaaaaaaaaaaaaaaaaa1200aaaaaaaaaaaaaaaaaaaaaaaaaaaaaa \
        aaaaaaaaaaaaaaaaaaaaaaaaaaaaaaaaaa00000000",
        "Sha1 Sm3 0@69:NoDigest",
    ],
    // Version 1.
    [
        "0100000008000000aaaaaaaaaaaaaaaaaaaaaaaaaaaaaaaaaaaaaaaa00000000",
        "Sha1 0@0:NoDigest",
    ],
];

/// Logs, and what PCRs 0, 1 and 17 of SM3 hold. OpenSSL computed the values.
const SM3_PCRS: [[&str; 2]; 4] = [
    // PCR 1 is extended twice.
    [
        "00000000030000000000000000000000000000000000000000000000210000005370656320494420 \
        4576656e7430330000000000000200020100000012002000000100000008000000010000001200aa \
        aaaaaaaaaaaaaaaaaaaaaaaaaaaaaaaaaaaaaaaaaaaaaaaaaaaaaaaaaaaaaa000000000100000008 \
        000000010000001200bbbbbbbbbbbbbbbbbbbbbbbbbbbbbbbbbbbbbbbbbbbbbbbbbbbbbbbbbbbbbb \
        bb00000000",
        "0000000000000000000000000000000000000000000000000000000000000000 \
         50629bfe4ba0a2d6a455581e311fb54f6fdb2455fd68b008c08d57f1e04fd6c4 \
         ffffffffffffffffffffffffffffffffffffffffffffffffffffffffffffffff",
    ],
    // Locality 3.
    [
        "00000000030000000000000000000000000000000000000000000000210000005370656320494420 \
        4576656e743033000000000000020002010000001200200000000000000300000001000000120000 \
        00000000000000000000000000000000000000000000000000000000000000110000005374617274 \
        75704c6f63616c69747900030000000008000000010000001200aaaaaaaaaaaaaaaaaaaaaaaaaaaa \
        aaaaaaaaaaaaaaaaaaaaaaaaaaaaaaaaaaaa00000000",
        "ba8a17231802a5ee1efeaab9655fca7b473958bfc19d09a33afbc820fb0f5ea2 \
         0000000000000000000000000000000000000000000000000000000000000000 \
         ffffffffffffffffffffffffffffffffffffffffffffffffffffffffffffffff",
    ],
    // A dynamic launch.
    [
        "00000000030000000000000000000000000000000000000000000000210000005370656320494420 \
        4576656e7430330000000000000200020100000012002000001100000008000000010000001200aa \
        aaaaaaaaaaaaaaaaaaaaaaaaaaaaaaaaaaaaaaaaaaaaaaaaaaaaaaaaaaaaaa00000000",
        "0000000000000000000000000000000000000000000000000000000000000000 \
         0000000000000000000000000000000000000000000000000000000000000000 \
         51529e5f22dba47f23a22b0970cd53de7d80c55856d704c17172d5ed04ce8f30",
    ],
    // A digest of SHA-1 alone.
    [
        "00000000030000000000000000000000000000000000000000000000250000005370656320494420 \
        4576656e743033000000000000020002020000000400140012002000000100000008000000010000 \
        000400aaaaaaaaaaaaaaaaaaaaaaaaaaaaaaaaaaaaaaaa00000000",
        "0000000000000000000000000000000000000000000000000000000000000000 \
         0@69:NoDigest \
         ffffffffffffffffffffffffffffffffffffffffffffffffffffffffffffffff",
    ],
];

/// Returns the active banks, and PCR 1 of SHA-256.
fn banks_text(bytes: &[u8]) -> Result<String, Fail> {
    let log = Log::new(bytes, LastEntry::Unknown);
    let mut text = String::new();
    for bank in &Bank::ALL {
        if is_active(&log, *bank) {
            fallible_write!(text, "{bank:?} ")?;
        }
    }
    let pcrs = replay(&log, Bank::Sha256);
    if let Some(outcome) = pcrs.outcome(PcrIndex(1)) {
        let outcome = outcome_text(outcome)?;
        text.fallible_push_str(outcome.as_str())?;
    }
    Ok(text)
}

#[test]
fn a_bank_is_active_if_an_event_extends_it() -> Result<(), Fail> {
    each_shows(&BANKS, banks_text)
}

/// Returns what PCRs 0, 1 and 17 of SM3 hold.
fn sm3_text(bytes: &[u8]) -> Result<String, Fail> {
    pcrs_text(Bank::Sm3, bytes)
}

#[test]
fn the_bank_of_sm3_is_replayed() -> Result<(), Fail> {
    each_shows(&SM3_PCRS, sm3_text)
}
