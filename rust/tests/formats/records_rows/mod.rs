// @generated from proved source. It is not edited.

//! The rows of the folder `data`, answered by the library `uefi_records`.

use crate::records_rows::answer::answer;
use crate::rows::answered;
use crate::support::test::Fail;

mod answer;
mod flags;
mod reading;
mod searching;
mod times;
mod writing;

#[test]
fn each_row_is_as_wanted() -> Result<(), Fail> {
    answered(&[
        ("times.rows", include_str!("times.rows")),
        ("files.rows", include_str!("files.rows")),
    ], |call, input| answer(call, input))
}
