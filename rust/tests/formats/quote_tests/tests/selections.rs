// @generated from proved source. It is not edited.

use crate::support::fallible::*;

use crate::quote_tests::tests::samples::{BEFORE_SAFE, DIGEST, SAFE};
use crate::support::test::Fail;
use crate::test_support::{joined_bytes, same, same_bytes};
use crate::tpm_quote::Quote;
use crate::uefi_tcg::{AlgorithmId, PcrIndex};

/// The selections of a quote with their number, and each selection: its algorithm and its PCRs, one
/// byte each, with `ff` after them.
const SELECTIONS: [(&str, &[u8]); 9] = [
    ("00000000", &[]),
    ("00000001 000b 00", &[0x0b, 0xff]),
    ("00000001 000b 01 80", &[0x0b, 7, 0xff]),
    ("00000001 000b 02 0180", &[0x0b, 0, 15, 0xff]),
    ("00000001 000b 03 000001", &[0x0b, 16, 0xff]),
    // A fourth byte that is zero selects nothing.
    ("00000001 000b 04 00008000", &[0x0b, 23, 0xff]),
    // A bank may be in several selections, and an algorithm unknown.
    (
        "00000002 000b 01 03 000b 01 02",
        &[0x0b, 0, 1, 0xff, 0x0b, 1, 0xff],
    ),
    ("00000001 00fe 01 01", &[0xfe, 0, 0xff]),
    (
        "00000003 0012 00 0004 01 10 0029 02 0008",
        &[0x12, 0xff, 0x04, 4, 0xff, 0x29, 11, 0xff],
    ),
];

/// Returns the selections as a row has them.
fn selected(input: &[u8]) -> Result<Vec<u8>, Fail> {
    let quote = Quote::try_from(input)?;
    let mut seen = Vec::new();
    for selection in quote.pcr_selections() {
        seen.fallible_push(u8::try_from(selection.algorithm().0).unwrap_or(0))?;
        for pcr in selection.pcrs() {
            seen.fallible_push(u8::try_from(pcr.0).unwrap_or(0))?;
        }
        seen.fallible_push(0xff)?;
    }
    Ok(seen)
}

#[test]
fn a_bitmap_has_bit_n_for_pcr_n() -> Result<(), Fail> {
    for (selections, expected) in &SELECTIONS {
        let input = joined_bytes(&[BEFORE_SAFE, SAFE, selections, DIGEST])?;
        let seen = selected(input.as_slice())?;
        same_bytes(selections, seen.as_slice(), expected)?;
    }
    Ok(())
}

#[test]
fn a_pcr_past_the_bitmap_is_not_selected() -> Result<(), Fail> {
    let input = joined_bytes(
        &[BEFORE_SAFE, SAFE, "00000001 0004 02 8001", DIGEST],
    )?;
    let quote = Quote::try_from(input.as_slice())?;
    let selection = quote.pcr_selections().next().ok_or("a selection")?;
    let rows = [
        (0, false),
        (7, true),
        (8, true),
        (15, false),
        (16, false),
        (24, false),
        (u32::MAX, false),
    ];
    for (pcr, expected) in rows {
        same(
            "selected",
            &(pcr, selection.contains(PcrIndex(pcr))),
            &(pcr, expected),
        )?;
    }
    same("algorithm", &selection.algorithm(), &AlgorithmId::SHA1)?;
    same_bytes("bitmap", selection.bitmap(), &[0x80, 0x01])
}

#[test]
fn an_iterator_of_selections_has_their_count() -> Result<(), Fail> {
    let input = joined_bytes(
        &[BEFORE_SAFE, SAFE, "00000002 0004 00 000b 00", DIGEST],
    )?;
    let quote = Quote::try_from(input.as_slice())?;
    let mut selections = quote.pcr_selections();
    same(
        "two",
        &(selections.len(), selections.size_hint()),
        &(2, (2, Some(2))),
    )?;
    let copy = selections;
    selections.next();
    same("one", &(selections.len(), copy.len()), &(1, 2))?;
    selections.next();
    let after = (selections.next().is_some(), selections.next().is_some());
    same("after the last", &after, &(false, false))?;
    same("counted", &quote.pcr_selections().count(), &2)
}
