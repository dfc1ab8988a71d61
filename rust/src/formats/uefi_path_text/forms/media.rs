// @generated from proved source. It is not edited.

use crate::formats::uefi_path_text::form::Arguments::Listed;
use crate::formats::uefi_path_text::form::Part::{Bytes, Value};
use crate::formats::uefi_path_text::form::Source::Known;
use crate::formats::uefi_path_text::form::argument::{Argument, Base};
use crate::formats::uefi_path_text::form::parameters::{DECIMAL_U16, DECIMAL_U32, GUID, U32, U64, VENDOR_DATA, ZERO};
use crate::formats::uefi_path_text::form::size::Size;
use crate::formats::uefi_path_text::form::words::Words;
use crate::formats::uefi_path_text::form::{NodeForm, PLAIN, Parameter};

/// What the forms have in common.
const MEDIA_FORM: NodeForm = NodeForm {
    device_type: Known(4),
    ..PLAIN
};

/// The GUID of a virtual disk in RAM (UEFI 2.10, 10.3.5.9).
const VIRTUAL_DISK: [u8; 16] = [
    0x5a, 0x53, 0xab, 0x77, 0xfc, 0x45, 0x4b, 0x62, 0x55, 0x60, 0xf7, 0xb2, 0x81, 0xd1, 0xf9, 0x6e,
];

/// The GUID of a virtual CD in RAM.
const VIRTUAL_CD: [u8; 16] = [
    0x30, 0xbd, 0x5a, 0x3d, 0x75, 0x41, 0xce, 0x87, 0x6d, 0x64, 0xd2, 0xad, 0xe5, 0x23, 0xc4, 0xbb,
];

/// The GUID of a persistent virtual disk in RAM.
const PERSISTENT_VIRTUAL_DISK: [u8; 16] = [
    0xc9, 2, 0xea, 0x5c, 7, 0x4d, 0xd3, 0x69, 0x26, 0x9f, 0x44, 0x96, 0xfb, 0xe0, 0x96, 0xf9,
];

/// The GUID of a persistent virtual CD in RAM.
const PERSISTENT_VIRTUAL_CD: [u8; 16] = [
    0x88, 0x81, 1, 8, 0xcd, 0x42, 0x48, 0xbb, 0x10, 0x0f, 0x53, 0x87, 0xd5, 0x3d, 0xed, 0x3d,
];

/// The forms of nodes of the type MEDIA.
static MEDIA: [NodeForm; 14] = [
    NodeForm {
        name: "HD",
        sub_type: Known(1),
        arguments: Listed(
            &[
                DECIMAL_U32,
                Parameter {
                    argument: Argument::Word(Words::Mbr, Size::One),
                    default: "",
                },
                Parameter {
                    argument: Argument::Number(Size::Four, Base::LongHex),
                    default: "0",
                },
                U64,
                U64,
            ],
            &[
                Value(0),
                Value(3),
                Value(4),
                Value(2),
                Bytes(&[0; 12]),
                Value(1),
                Bytes(&[1]),
            ],
        ),
        first_displayed: 0,
        displayed: 3,
        reserved: Some(4),
        ..MEDIA_FORM
    },
    NodeForm {
        name: "HD",
        sub_type: Known(1),
        arguments: Listed(
            &[
                DECIMAL_U32,
                Parameter {
                    argument: Argument::Word(Words::Gpt, Size::One),
                    default: "",
                },
                GUID,
                U64,
                U64,
            ],
            &[
                Value(0),
                Value(3),
                Value(4),
                Value(2),
                Value(1),
                Bytes(&[2]),
            ],
        ),
        first_displayed: 0,
        displayed: 3,
        ..MEDIA_FORM
    },
    NodeForm {
        name: "HD",
        sub_type: Known(1),
        arguments: Listed(
            &[
                DECIMAL_U32,
                Parameter {
                    argument: Argument::Number(Size::One, Base::Decimal),
                    default: "",
                },
                ZERO,
                U64,
                U64,
            ],
            &[Value(0), Value(3), Value(4), Bytes(&[0; 17]), Value(1)],
        ),
        first_displayed: 0,
        displayed: 3,
        reserved: Some(3),
        ..MEDIA_FORM
    },
    NodeForm {
        name: "CDROM",
        sub_type: Known(2),
        arguments: Listed(&[U32, U64, U64], &[Value(0), Value(1), Value(2)]),
        first_displayed: 0,
        displayed: 1,
        ..MEDIA_FORM
    },
    NodeForm {
        name: "VenMedia",
        sub_type: Known(3),
        arguments: Listed(&[GUID, VENDOR_DATA], &[Value(0), Value(1)]),
        ..MEDIA_FORM
    },
    NodeForm {
        name: "Media",
        sub_type: Known(5),
        arguments: Listed(&[GUID], &[Value(0)]),
        ..MEDIA_FORM
    },
    NodeForm {
        name: "FvFile",
        sub_type: Known(6),
        arguments: Listed(&[GUID], &[Value(0)]),
        ..MEDIA_FORM
    },
    NodeForm {
        name: "Fv",
        sub_type: Known(7),
        arguments: Listed(&[GUID], &[Value(0)]),
        ..MEDIA_FORM
    },
    NodeForm {
        name: "Offset",
        sub_type: Known(8),
        arguments: Listed(&[U64, U64], &[Bytes(&[0; 4]), Value(0), Value(1)]),
        reserved: Some(0),
        ..MEDIA_FORM
    },
    NodeForm {
        name: "VirtualDisk",
        sub_type: Known(9),
        arguments: Listed(
            &[U64, U64, DECIMAL_U16],
            &[Value(0), Value(1), Bytes(&VIRTUAL_DISK), Value(2)],
        ),
        ..MEDIA_FORM
    },
    NodeForm {
        name: "VirtualCD",
        sub_type: Known(9),
        arguments: Listed(
            &[U64, U64, DECIMAL_U16],
            &[Value(0), Value(1), Bytes(&VIRTUAL_CD), Value(2)],
        ),
        ..MEDIA_FORM
    },
    NodeForm {
        name: "PersistentVirtualDisk",
        sub_type: Known(9),
        arguments: Listed(
            &[U64, U64, DECIMAL_U16],
            &[
                Value(0),
                Value(1),
                Bytes(&PERSISTENT_VIRTUAL_DISK),
                Value(2),
            ],
        ),
        ..MEDIA_FORM
    },
    NodeForm {
        name: "PersistentVirtualCD",
        sub_type: Known(9),
        arguments: Listed(
            &[U64, U64, DECIMAL_U16],
            &[Value(0), Value(1), Bytes(&PERSISTENT_VIRTUAL_CD), Value(2)],
        ),
        ..MEDIA_FORM
    },
    NodeForm {
        name: "RamDisk",
        sub_type: Known(9),
        arguments: Listed(
            &[U64, U64, DECIMAL_U16, GUID],
            &[Value(0), Value(1), Value(3), Value(2)],
        ),
        ..MEDIA_FORM
    },
];

/// Returns the forms of nodes of the type MEDIA.
#[inline]
pub(crate) fn forms() -> &'static [NodeForm] {
    &MEDIA
}
