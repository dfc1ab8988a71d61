// @generated from proved source. It is not edited.

use crate::pcr_replay::{Fault, NoQuoteDigest, Undetermined};
use crate::support::alloc::AllocError;
use core::error::Error;
use crate::support::test::Fail;
use crate::test_support::same_text;
use crate::uefi_tcg::{AlgorithmId, PcrIndex};

/// Each fault, and its text.
const FAULTS: [(Fault, &str); 6] = [
    (Fault::NoDigest, "has no digest of the bank"),
    (Fault::TwoDigests, "has two digests of the bank or more"),
    (Fault::OtherLength, "has a digest of another length"),
    (
        Fault::UnknownLocality,
        "states a locality other than 0, 3 and 4",
    ),
    (
        Fault::OtherLocality,
        "states another locality than PCR 0 starts at",
    ),
    (
        Fault::LateLocality,
        "states the locality after PCR 0 was extended",
    ),
];

#[test]
fn a_fault_says_what_is_wrong_with_the_event() -> Result<(), Fail> {
    for (fault, expected) in &FAULTS {
        let shown = fallible_format!("{fault}")?;
        same_text(expected, shown.as_str(), expected)?;
    }
    Ok(())
}

/// Returns the text of an error.
fn text<E: Error>(error: &E) -> Result<String, AllocError> {
    fallible_format!("{error}")
}
