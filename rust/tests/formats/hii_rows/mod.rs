// @generated from proved source. It is not edited.

//! The rows of the folder `data`, answered by the library `uefi_hii`.

use crate::hii_rows::answer::answer;
use crate::rows::answered;
use crate::support::test::Fail;

mod answer;
mod filling;
mod items;
mod values;

#[test]
fn each_row_is_as_wanted() -> Result<(), Fail> {
    answered(&[
        ("configurations.rows", include_str!("configurations.rows")),
        ("values.rows", include_str!("values.rows")),
    ],
        |call, input| answer(call, input),
    )
}
