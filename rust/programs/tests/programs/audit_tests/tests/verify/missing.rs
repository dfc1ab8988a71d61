// @generated from proved source. It is not edited.

use crate::audit_text::text::push_missing;
use crate::support::test::Fail;
use crate::test_support::{Refusing, takes_memory};
use crate::uefi_audits::verify::{
    HeldPcr, PcrSelection, held_in_text, missing_pcrs, named_pcrs, selected_pcrs, selections_in,
};

/// The PCRs 0 and 1 of SHA-1, and PCR 0 of SHA-256.
const HELD: &str = "  sha1:\n    0 : 0xaaaaaaaaaaaaaaaaaaaaaaaaaaaaaaaaaaaaaaaa\n    1 : 0\
     xbbbbbbbbbbbbbbbbbbbbbbbbbbbbbbbbbbbbbbbb\n  sha256:\n    0 : 0xcccccc\
     cccccccccccccccccccccccccccccccccccccccccccccccccccccccccc\n";

/// Returns how many selections a text names, if no request is refused.
fn count_selections(text: &str) -> Option<usize> {
    let selections = selections_in(text.as_bytes()).ok()?;
    Some(selections?.len())
}

/// Returns how many PCRs are missing, after their lines, if no request is refused.
fn count_missing(
    held: &[HeldPcr],
    selections: &[PcrSelection],
) -> Option<usize> {
    let stated = named_pcrs(held).ok()?;
    let missing = missing_pcrs(stated.as_slice(), selections).ok()?;
    let mut messages = String::new();
    push_missing(&mut messages, "pcrs", missing.as_slice()).ok()?;
    Some(missing.len())
}

/// Returns how many PCRs are selected, if no request is refused.
fn count_selected(
    held: &[HeldPcr],
    selections: &[PcrSelection],
) -> Option<usize> {
    Some(selected_pcrs(held, selections).ok()?.len())
}

#[test]
fn a_selection_runs_out_of_memory_at_each_request() -> Result<(), Fail> {
    let Ok(held) = held_in_text(HELD.as_bytes()) else {
        return Err(Fail::new("the held PCRs can't be read"));
    };
    let pcrs = held.pcrs.as_slice();
    let Some(selections) = selections_in(b"1-2")? else {
        return Err(Fail::new("the selections can't be read"));
    };
    let selections = selections.as_slice();
    takes_memory(&3, || count_missing(pcrs, selections))?;
    takes_memory(&1, || count_selected(pcrs, selections))?;
    takes_memory(&2, || count_selections("sha1:0+sha256:1"))
}
