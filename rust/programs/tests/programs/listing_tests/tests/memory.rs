// @generated from proved source. It is not edited.

use crate::listing_tests::tests::runs::{RUNS, Run, input_of};
use crate::support::test::Fail;
use crate::test_support::{holds, in_turn};
use crate::uefi_listing::command::Command;
use crate::uefi_listing::listing::{Outcome, listing};

/// Returns whether the listing of the bytes is the expected one, and its outcome; or `None` if
/// memory ran out.
fn listed(
    (command, input): (&Command, &[u8]),
    expected: &str,
) -> Option<(bool, Outcome)> {
    let (text, outcome) = listing(command, input).ok()?;
    Some((text.as_slice() == expected.as_bytes(), outcome))
}

/// Checks that the listing of a run is made, or a request for memory was refused.
fn lists_or_runs_out(run: &Run) -> Result<(), Fail> {
    let (command, row, expected, outcome) = run;
    let input = input_of(run)?;
    let asked = (command, input.as_slice());
    let requests = in_turn(
        &(true, *outcome),
        || listed(asked, expected),
    )?;
    holds(row, requests > 0)
}

#[test]
fn a_listing_is_made_or_memory_was_refused() -> Result<(), Fail> {
    for run in &RUNS {
        lists_or_runs_out(run)?;
    }
    Ok(())
}
