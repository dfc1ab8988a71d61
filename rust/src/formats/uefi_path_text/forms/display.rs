// @generated from proved source. It is not edited.

use crate::formats::uefi_path_text::form::Arguments::Listed;
use crate::formats::uefi_path_text::form::Part::{Bytes, Value};
use crate::formats::uefi_path_text::form::Source::Known;
use crate::formats::uefi_path_text::form::parameters::{EISA_ID, EISA_LETTERS, SOME_STRING, STRING, U32, ZERO_U32};
use crate::formats::uefi_path_text::form::{NodeForm, PLAIN};

/// What the forms have in common.
const EXPANDED_FORM: NodeForm = NodeForm {
    device_type: Known(2),
    sub_type: Known(2),
    ..PLAIN
};

/// The forms of nodes that are for display alone.
static DISPLAY: [NodeForm; 6] = [
    NodeForm {
        name: "PciRoot",
        arguments: Listed(
            &[EISA_LETTERS, U32, EISA_ID, STRING, STRING, STRING],
            &[
                Value(0),
                Bytes(&[3, 0x0a]),
                Value(1),
                Value(2),
                Value(3),
                Bytes(&[0]),
                Value(4),
                Bytes(&[0]),
                Value(5),
                Bytes(&[0]),
            ],
        ),
        first_displayed: 4,
        displayed: 1,
        ..EXPANDED_FORM
    },
    NodeForm {
        name: "PcieRoot",
        arguments: Listed(
            &[EISA_LETTERS, U32, EISA_ID, STRING, STRING, STRING],
            &[
                Value(0),
                Bytes(&[8, 0x0a]),
                Value(1),
                Value(2),
                Value(3),
                Bytes(&[0]),
                Value(4),
                Bytes(&[0]),
                Value(5),
                Bytes(&[0]),
            ],
        ),
        first_displayed: 4,
        displayed: 1,
        ..EXPANDED_FORM
    },
    NodeForm {
        name: "PciRoot",
        arguments: Listed(
            &[EISA_ID, U32, EISA_LETTERS, STRING, STRING, STRING],
            &[
                Value(0),
                Value(1),
                Value(2),
                Bytes(&[3, 0x0a]),
                Value(3),
                Bytes(&[0]),
                Value(4),
                Bytes(&[0]),
                Value(5),
                Bytes(&[0]),
            ],
        ),
        first_displayed: 4,
        displayed: 1,
        ..EXPANDED_FORM
    },
    NodeForm {
        name: "PcieRoot",
        arguments: Listed(
            &[EISA_ID, U32, EISA_LETTERS, STRING, STRING, STRING],
            &[
                Value(0),
                Value(1),
                Value(2),
                Bytes(&[8, 0x0a]),
                Value(3),
                Bytes(&[0]),
                Value(4),
                Bytes(&[0]),
                Value(5),
                Bytes(&[0]),
            ],
        ),
        first_displayed: 4,
        displayed: 1,
        ..EXPANDED_FORM
    },
    NodeForm {
        name: "AcpiExp",
        arguments: Listed(
            &[EISA_ID, ZERO_U32, SOME_STRING, U32],
            &[
                Value(0),
                Value(3),
                Value(1),
                Bytes(&[0]),
                Value(2),
                Bytes(&[0]),
                Bytes(&[0]),
            ],
        ),
        first_displayed: 0,
        displayed: 3,
        ..EXPANDED_FORM
    },
    NodeForm {
        name: "AcpiExp",
        arguments: Listed(
            &[EISA_ID, EISA_ID, SOME_STRING, U32],
            &[
                Value(0),
                Value(3),
                Value(1),
                Bytes(&[0]),
                Value(2),
                Bytes(&[0]),
                Bytes(&[0]),
            ],
        ),
        first_displayed: 0,
        displayed: 3,
        ..EXPANDED_FORM
    },
];

/// Returns the forms of nodes that are for display alone.
#[inline]
pub(crate) fn forms() -> &'static [NodeForm] {
    &DISPLAY
}
