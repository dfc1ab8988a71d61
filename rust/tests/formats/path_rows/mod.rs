// @generated from proved source. It is not edited.

//! The rows of the folder `data`, answered by the library `uefi_path`.

use crate::path_rows::answer::answer;
use crate::rows::answered;
use crate::support::test::Fail;

mod answer;
mod appending;
mod attributes;
mod nodes;
mod options;
mod paths;
mod samples;
mod writing;

#[test]
fn each_row_is_as_wanted() -> Result<(), Fail> {
    answered(&[
        ("paths.rows", include_str!("paths.rows")),
        ("options.rows", include_str!("options.rows")),
    ],
        |call, input| answer(call, input),
    )
}
