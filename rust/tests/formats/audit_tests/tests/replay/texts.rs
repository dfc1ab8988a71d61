// @generated from proved source. It is not edited.

use crate::pcr_replay::{Fault, NoQuoteDigest, Undetermined};
use crate::support::alloc::AllocError;
use core::error::Error;
use crate::support::test::Fail;
use crate::test_support::same_text;
use crate::uefi_tcg::{AlgorithmId, PcrIndex};

/// Each fault, and its text.
const FAULTS: [(Fault, &str); 6] = [
    (Fault::NoDigest, "has no digest of the bank"),
    (Fault::TwoDigests, "has two digests of the bank or more"),
    (Fault::OtherLength, "has a digest of another length"),
    (
        Fault::UnknownLocality,
        "states a locality other than 0, 3 and 4",
    ),
    (
        Fault::OtherLocality,
        "states another locality than PCR 0 starts at",
    ),
    (
        Fault::LateLocality,
        "states the locality after PCR 0 was extended",
    ),
];

#[test]
fn a_fault_says_what_is_wrong_with_the_event() -> Result<(), Fail> {
    for (fault, expected) in &FAULTS {
        let shown = fallible_format!("{fault}")?;
        same_text(expected, shown.as_str(), expected)?;
    }
    Ok(())
}

/// Returns the text of an error.
fn text<E: Error>(error: &E) -> Result<String, AllocError> {
    fallible_format!("{error}")
}

#[test]
fn an_error_says_what_is_wrong() -> Result<(), Fail> {
    let at = Undetermined {
        index: 3,
        offset: 675,
        fault: Fault::NoDigest,
    };
    let event = "event 3 at offset 675 has no digest of the bank";
    same_text("an event", text(&at)?.as_str(), event)?;
    let no_bank = NoQuoteDigest::NoBank(AlgorithmId::SHA256);
    same_text(
        "no bank",
        text(&no_bank)?.as_str(),
        "no bank of algorithm 0xb",
    )?;
    let undetermined = NoQuoteDigest::Undetermined(AlgorithmId::SHA256, PcrIndex(7), at);
    same_text(
        "a PCR",
        text(&undetermined)?.as_str(),
        "PCR 7 of algorithm 0xb is undetermined: event 3 at offset 675 has no digest of the bank",
    )
}
