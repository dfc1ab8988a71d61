// @generated from proved source. It is not edited.

//! The rows of the folder `data`, answered by the library `uefi_map`.

use crate::map_rows::answer::answer;
use crate::rows::answered;
use crate::support::test::Fail;

mod answer;
mod maps;
mod names;
mod resources;
mod values;
mod writing;

#[test]
fn each_row_is_as_wanted() -> Result<(), Fail> {
    answered(&[
        ("memory.rows", include_str!("memory.rows")),
        ("values.rows", include_str!("values.rows")),
        ("pci.rows", include_str!("pci.rows")),
    ],
        |call, input| answer(call, input),
    )
}
