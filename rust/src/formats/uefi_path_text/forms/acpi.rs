// @generated from proved source. It is not edited.

use crate::formats::uefi_path_text::form::Arguments::{Listed, Repeated};
use crate::formats::uefi_path_text::form::Part::{Bytes, Value};
use crate::formats::uefi_path_text::form::Source::Known;
use crate::formats::uefi_path_text::form::argument::{Argument, Base};
use crate::formats::uefi_path_text::form::parameters::{EISA_ID, SOME_STRING, STRING, U32, ZERO_U32};
use crate::formats::uefi_path_text::form::size::Size;
use crate::formats::uefi_path_text::form::{NodeForm, PLAIN, Parameter};

/// What the forms have in common.
const ACPI_FORM: NodeForm = NodeForm {
    device_type: Known(2),
    ..PLAIN
};

/// The forms of nodes of the type ACPI.
static ACPI: [NodeForm; 12] = [
    NodeForm {
        name: "PciRoot",
        sub_type: Known(1),
        arguments: Listed(&[U32], &[Bytes(&[0xd0, 0x41, 3, 0x0a]), Value(0)]),
        ..ACPI_FORM
    },
    NodeForm {
        name: "PcieRoot",
        sub_type: Known(1),
        arguments: Listed(&[U32], &[Bytes(&[0xd0, 0x41, 8, 0x0a]), Value(0)]),
        ..ACPI_FORM
    },
    NodeForm {
        name: "Floppy",
        sub_type: Known(1),
        arguments: Listed(&[U32], &[Bytes(&[0xd0, 0x41, 4, 6]), Value(0)]),
        ..ACPI_FORM
    },
    NodeForm {
        name: "Keyboard",
        sub_type: Known(1),
        arguments: Listed(&[U32], &[Bytes(&[0xd0, 0x41, 1, 3]), Value(0)]),
        ..ACPI_FORM
    },
    NodeForm {
        name: "Serial",
        sub_type: Known(1),
        arguments: Listed(&[U32], &[Bytes(&[0xd0, 0x41, 1, 5]), Value(0)]),
        ..ACPI_FORM
    },
    NodeForm {
        name: "ParallelPort",
        sub_type: Known(1),
        arguments: Listed(&[U32], &[Bytes(&[0xd0, 0x41, 1, 4]), Value(0)]),
        ..ACPI_FORM
    },
    NodeForm {
        name: "Acpi",
        sub_type: Known(1),
        arguments: Listed(
            &[
                Parameter {
                    argument: Argument::PnpId,
                    default: "",
                },
                U32,
            ],
            &[Value(0), Value(1)],
        ),
        ..ACPI_FORM
    },
    NodeForm {
        name: "Acpi",
        sub_type: Known(1),
        arguments: Listed(
            &[
                Parameter {
                    argument: Argument::Number(Size::Four, Base::LongHex),
                    default: "",
                },
                U32,
            ],
            &[Value(0), Value(1)],
        ),
        ..ACPI_FORM
    },
    NodeForm {
        name: "AcpiExp",
        sub_type: Known(2),
        arguments: Listed(
            &[EISA_ID, ZERO_U32, SOME_STRING],
            &[
                Value(0),
                Bytes(&[0; 4]),
                Value(1),
                Bytes(&[0]),
                Value(2),
                Bytes(&[0]),
                Bytes(&[0]),
            ],
        ),
        ..ACPI_FORM
    },
    NodeForm {
        name: "AcpiExp",
        sub_type: Known(2),
        arguments: Listed(
            &[EISA_ID, EISA_ID, SOME_STRING],
            &[
                Value(0),
                Bytes(&[0; 4]),
                Value(1),
                Bytes(&[0]),
                Value(2),
                Bytes(&[0]),
                Bytes(&[0]),
            ],
        ),
        ..ACPI_FORM
    },
    NodeForm {
        name: "AcpiEx",
        sub_type: Known(2),
        arguments: Listed(
            &[EISA_ID, EISA_ID, U32, STRING, STRING, STRING],
            &[
                Value(0),
                Value(2),
                Value(1),
                Value(3),
                Bytes(&[0]),
                Value(5),
                Bytes(&[0]),
                Value(4),
                Bytes(&[0]),
            ],
        ),
        first_displayed: 3,
        displayed: 3,
        ..ACPI_FORM
    },
    NodeForm {
        name: "AcpiAdr",
        sub_type: Known(3),
        arguments: Repeated(&[], Argument::Number(Size::Four, Base::Hex)),
        ..ACPI_FORM
    },
];

/// Returns the forms of nodes of the type ACPI.
#[inline]
pub(crate) fn forms() -> &'static [NodeForm] {
    &ACPI
}
