// @generated from proved source. It is not edited.

use crate::formats::uefi_path_text::form::Arguments::Listed;
use crate::formats::uefi_path_text::form::Part::{Bytes, Sum, Value};
use crate::formats::uefi_path_text::form::Source::Known;
use crate::formats::uefi_path_text::form::argument::Argument;
use crate::formats::uefi_path_text::form::parameters::{
    BIG_ENDIAN, DRIVE_BAY, IDENTIFIER, NO_TOPOLOGY, SAS_CONNECTION, SAS_INTERFACE, SAS_LOCATION,
    STRING, U8, U16, U32, U64, ZERO,
};
use crate::formats::uefi_path_text::form::shape::Shape;
use crate::formats::uefi_path_text::form::size::Size;
use crate::formats::uefi_path_text::form::words::Words;
use crate::formats::uefi_path_text::form::{NodeForm, PLAIN, Parameter};

/// What the forms have in common.
const MESSAGING_FORM: NodeForm = NodeForm {
    device_type: Known(3),
    ..PLAIN
};

/// The forms of nodes of the type MESSAGING that lead to storage.
static STORAGE: [NodeForm; 16] = [
    NodeForm {
        name: "Ata",
        sub_type: Known(1),
        arguments: Listed(
            &[
                Parameter {
                    argument: Argument::Word(Words::Channel, Size::One),
                    default: "0",
                },
                Parameter {
                    argument: Argument::Word(Words::Drive, Size::One),
                    default: "0",
                },
                U16,
            ],
            &[Value(0), Value(1), Value(2)],
        ),
        first_displayed: 2,
        displayed: 1,
        ..MESSAGING_FORM
    },
    NodeForm {
        name: "Scsi",
        sub_type: Known(2),
        arguments: Listed(&[U16, U16], &[Value(0), Value(1)]),
        ..MESSAGING_FORM
    },
    NodeForm {
        name: "Fibre",
        sub_type: Known(3),
        arguments: Listed(&[U64, U64], &[Bytes(&[0; 4]), Value(0), Value(1)]),
        reserved: Some(0),
        ..MESSAGING_FORM
    },
    NodeForm {
        name: "FibreEx",
        sub_type: Known(21),
        arguments: Listed(
            &[BIG_ENDIAN, BIG_ENDIAN],
            &[Bytes(&[0; 4]), Value(0), Value(1)],
        ),
        reserved: Some(0),
        ..MESSAGING_FORM
    },
    NodeForm {
        name: "I1394",
        sub_type: Known(4),
        arguments: Listed(
            &[Parameter {
                argument: Argument::Digits(Shape::Ieee1394),
                default: "",
            }],
            &[Bytes(&[0; 4]), Value(0)],
        ),
        reserved: Some(0),
        ..MESSAGING_FORM
    },
    NodeForm {
        name: "I2O",
        sub_type: Known(6),
        arguments: Listed(&[U32], &[Value(0)]),
        ..MESSAGING_FORM
    },
    NodeForm {
        name: "Sata",
        sub_type: Known(18),
        arguments: Listed(&[U16, IDENTIFIER, U16], &[Value(0), Value(1), Value(2)]),
        ..MESSAGING_FORM
    },
    NodeForm {
        name: "Unit",
        sub_type: Known(17),
        arguments: Listed(&[U8], &[Value(0)]),
        ..MESSAGING_FORM
    },
    NodeForm {
        name: "SasEx",
        sub_type: Known(22),
        arguments: Listed(
            &[BIG_ENDIAN, BIG_ENDIAN, U16, NO_TOPOLOGY, ZERO, ZERO, ZERO],
            &[Value(0), Value(1), Value(3), Value(2)],
        ),
        ..MESSAGING_FORM
    },
    NodeForm {
        name: "SasEx",
        sub_type: Known(22),
        arguments: Listed(
            &[
                BIG_ENDIAN,
                BIG_ENDIAN,
                U16,
                SAS_INTERFACE,
                SAS_LOCATION,
                SAS_CONNECTION,
                DRIVE_BAY,
            ],
            &[Value(0), Value(1), Sum(3, 4), Value(2)],
        ),
        ..MESSAGING_FORM
    },
    NodeForm {
        name: "SasEx",
        sub_type: Known(22),
        arguments: Listed(
            &[BIG_ENDIAN, BIG_ENDIAN, U16, U16, ZERO, ZERO, ZERO],
            &[Value(0), Value(1), Value(3), Value(2)],
        ),
        ..MESSAGING_FORM
    },
    NodeForm {
        name: "iSCSI",
        sub_type: Known(19),
        arguments: Listed(
            &[
                STRING,
                U16,
                BIG_ENDIAN,
                Parameter {
                    argument: Argument::Word(Words::HeaderDigest, Size::Two),
                    default: "None",
                },
                Parameter {
                    argument: Argument::Word(Words::DataDigest, Size::Two),
                    default: "None",
                },
                Parameter {
                    argument: Argument::Word(Words::Authentication, Size::Two),
                    default: "CHAP_BI",
                },
                Parameter {
                    argument: Argument::Word(Words::Tcp, Size::Two),
                    default: "TCP",
                },
            ],
            &[
                Value(6),
                Sum(3, 3),
                Value(2),
                Value(1),
                Value(0),
                Bytes(&[0]),
            ],
        ),
        ..MESSAGING_FORM
    },
    NodeForm {
        name: "NVMe",
        sub_type: Known(23),
        arguments: Listed(
            &[
                U32,
                Parameter {
                    argument: Argument::Digits(Shape::Eui64),
                    default: "",
                },
            ],
            &[Value(0), Value(1)],
        ),
        ..MESSAGING_FORM
    },
    NodeForm {
        name: "UFS",
        sub_type: Known(25),
        arguments: Listed(&[U8, U8], &[Value(0), Value(1)]),
        ..MESSAGING_FORM
    },
    NodeForm {
        name: "SD",
        sub_type: Known(26),
        arguments: Listed(&[U8], &[Value(0)]),
        ..MESSAGING_FORM
    },
    NodeForm {
        name: "eMMC",
        sub_type: Known(29),
        arguments: Listed(&[U8], &[Value(0)]),
        ..MESSAGING_FORM
    },
];

/// Returns the forms of nodes of the type MESSAGING that lead to storage.
#[inline]
pub(crate) fn forms() -> &'static [NodeForm] {
    &STORAGE
}
