// @generated from proved source. It is not edited.

//! The rows of the folder `data`, answered by the library `uefi_base`.

use crate::base_rows::answer::answer;
use crate::rows::answered;
use crate::support::test::Fail;

mod answer;
mod errors;
mod guids;
mod texts;
mod units;

#[test]
fn each_row_is_as_wanted() -> Result<(), Fail> {
    answered(&[
        ("texts.rows", include_str!("texts.rows")),
        ("values.rows", include_str!("values.rows")),
    ],
        |call, input| answer(call, input),
    )
}
