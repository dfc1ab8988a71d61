// @generated from proved source. It is not edited.

//! The rows of the folder `data`, answered by the library `uefi_path_text`.

use crate::path_text_rows::answer::answer;
use crate::rows::answered;
use crate::support::test::Fail;

mod answer;
mod texts;

#[test]
fn each_row_is_as_wanted() -> Result<(), Fail> {
    answered(&[
        ("texts.rows", include_str!("texts.rows")),
        ("from_text.rows", include_str!("from_text.rows")),
    ],
        |call, input| answer(call, input),
    )
}
