// @generated from proved source. It is not edited.

use crate::formats::uefi_path_text::form::Arguments::Listed;
use crate::formats::uefi_path_text::form::Part::Value;
use crate::formats::uefi_path_text::form::Source::Known;
use crate::formats::uefi_path_text::form::parameters::{GUID, U8, U32, U64, VENDOR_DATA};
use crate::formats::uefi_path_text::form::{NodeForm, PLAIN};

/// What the forms have in common.
const HARDWARE_FORM: NodeForm = NodeForm {
    device_type: Known(1),
    ..PLAIN
};

/// The forms of nodes of the type HARDWARE.
static HARDWARE: [NodeForm; 6] = [
    NodeForm {
        name: "Pci",
        sub_type: Known(1),
        arguments: Listed(&[U8, U8], &[Value(1), Value(0)]),
        ..HARDWARE_FORM
    },
    NodeForm {
        name: "PcCard",
        sub_type: Known(2),
        arguments: Listed(&[U8], &[Value(0)]),
        ..HARDWARE_FORM
    },
    NodeForm {
        name: "MemoryMapped",
        sub_type: Known(3),
        arguments: Listed(&[U32, U64, U64], &[Value(0), Value(1), Value(2)]),
        ..HARDWARE_FORM
    },
    NodeForm {
        name: "VenHw",
        sub_type: Known(4),
        arguments: Listed(&[GUID, VENDOR_DATA], &[Value(0), Value(1)]),
        ..HARDWARE_FORM
    },
    NodeForm {
        name: "Ctrl",
        sub_type: Known(5),
        arguments: Listed(&[U32], &[Value(0)]),
        ..HARDWARE_FORM
    },
    NodeForm {
        name: "BMC",
        sub_type: Known(6),
        arguments: Listed(&[U8, U64], &[Value(0), Value(1)]),
        ..HARDWARE_FORM
    },
];

/// Returns the forms of nodes of the type HARDWARE.
#[inline]
pub(crate) fn forms() -> &'static [NodeForm] {
    &HARDWARE
}
