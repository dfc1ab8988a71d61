// @generated from proved source. It is not edited.

//! The rows of the folder `data`, answered by the libraries `uefi_tcg` and `tcg_event`.

use crate::tcg_rows::answer::answer;
use crate::rows::answered;
use crate::support::test::Fail;

mod answer;
mod capabilities;
mod content;
mod gpt;
mod log_inputs;
mod logs;
mod names;
mod of_logs;
mod samples;
mod signatures;
mod sweeps;
mod texts;
mod v1_logs;
mod v2_headers;
mod v2_logs;
mod writers;

#[test]
fn each_row_is_as_wanted() -> Result<(), Fail> {
    answered(&[
        ("names.rows", include_str!("names.rows")),
        ("content.rows", include_str!("content.rows")),
        ("v1.rows", include_str!("v1.rows")),
        ("v2.rows", include_str!("v2.rows")),
        ("logs.rows", include_str!("logs.rows")),
        ("capabilities.rows", include_str!("capabilities.rows")),
    ],
        |call, input| answer(call, input),
    )
}
