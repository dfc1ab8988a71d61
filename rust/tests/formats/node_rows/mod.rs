// @generated from proved source. It is not edited.

//! The rows of the folder `data`, answered by the library `uefi_node`.

use crate::node_rows::answer::answer;
use crate::rows::answered;
use crate::support::test::Fail;

mod answer;
mod flags;
mod messaging;
mod names;
mod nodes;
mod parts;

#[test]
fn each_row_is_as_wanted() -> Result<(), Fail> {
    answered(&[
        ("nodes.rows", include_str!("nodes.rows")),
        ("refused.rows", include_str!("refused.rows")),
    ], |call, input| answer(call, input))
}
