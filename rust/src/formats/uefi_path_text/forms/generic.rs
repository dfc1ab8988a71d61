// @generated from proved source. It is not edited.

use crate::formats::uefi_path_text::form::Arguments::Listed;
use crate::formats::uefi_path_text::form::Part::Value;
use crate::formats::uefi_path_text::form::Source::{Known, Stated};
use crate::formats::uefi_path_text::form::parameters::{NODE_DATA, U8};
use crate::formats::uefi_path_text::form::{NodeForm, PLAIN};

/// The forms of nodes of any type.
static GENERIC: [NodeForm; 6] = [
    NodeForm {
        name: "Path",
        device_type: Stated(0),
        sub_type: Stated(1),
        arguments: Listed(&[U8, U8, NODE_DATA], &[Value(2)]),
        ..PLAIN
    },
    NodeForm {
        name: "HardwarePath",
        device_type: Known(1),
        sub_type: Stated(0),
        arguments: Listed(&[U8, NODE_DATA], &[Value(1)]),
        ..PLAIN
    },
    NodeForm {
        name: "AcpiPath",
        device_type: Known(2),
        sub_type: Stated(0),
        arguments: Listed(&[U8, NODE_DATA], &[Value(1)]),
        ..PLAIN
    },
    NodeForm {
        name: "Msg",
        device_type: Known(3),
        sub_type: Stated(0),
        arguments: Listed(&[U8, NODE_DATA], &[Value(1)]),
        ..PLAIN
    },
    NodeForm {
        name: "MediaPath",
        device_type: Known(4),
        sub_type: Stated(0),
        arguments: Listed(&[U8, NODE_DATA], &[Value(1)]),
        ..PLAIN
    },
    NodeForm {
        name: "BbsPath",
        device_type: Known(5),
        sub_type: Stated(0),
        arguments: Listed(&[U8, NODE_DATA], &[Value(1)]),
        ..PLAIN
    },
];

/// Returns the forms of nodes of any type.
#[inline]
pub(crate) fn forms() -> &'static [NodeForm] {
    &GENERIC
}
