// @generated from proved source. It is not edited.

use crate::formats::uefi_path_text::form::Arguments::Listed;
use crate::formats::uefi_path_text::form::Part::{Bytes, Sum, Value};
use crate::formats::uefi_path_text::form::Source::Known;
use crate::formats::uefi_path_text::form::argument::Argument;
use crate::formats::uefi_path_text::form::parameters::{
    DRIVE_BAY, GUID, NO_TOPOLOGY, SAS_CONNECTION, SAS_INTERFACE, SAS_LOCATION, U16, U32, U64,
    VENDOR_DATA, ZERO,
};
use crate::formats::uefi_path_text::form::size::Size;
use crate::formats::uefi_path_text::form::words::Words;
use crate::formats::uefi_path_text::form::{NodeForm, PLAIN, Parameter};

/// What the forms have in common.
const VENDOR_FORM: NodeForm = NodeForm {
    device_type: Known(3),
    sub_type: Known(10),
    ..PLAIN
};

/// The GUID of a terminal of type PC-ANSI (UEFI 2.10, 10.3.4.17).
const PC_ANSI: [u8; 16] = [
    0x53, 0x47, 0xc1, 0xe0, 0xbe, 0xf9, 0xd2, 0x11, 0x9a, 0x0c, 0, 0x90, 0x27, 0x3f, 0xc1, 0x4d,
];

/// The GUID of a terminal of type VT100.
const VT100: [u8; 16] = [
    0x65, 0x60, 0xa6, 0xdf, 0x19, 0xb4, 0xd3, 0x11, 0x9a, 0x2d, 0, 0x90, 0x27, 0x3f, 0xc1, 0x4d,
];

/// The GUID of a terminal of type VT100+.
const VT100_PLUS: [u8; 16] = [
    0x0b, 0xc7, 0xae, 0x7b, 0xe0, 0x57, 0x76, 0x4c, 0x8e, 0x87, 0x2f, 0x9e, 0x28, 8, 0x83, 0x43,
];

/// The GUID of a terminal of type VT-UTF8.
const UTF8: [u8; 16] = [
    0xd6, 0xa0, 0x15, 0xad, 0xec, 0x8b, 0xcf, 0x4a, 0xa0, 0x73, 0xd0, 0x1d, 0xe7, 0x7e, 0x2d, 0x88,
];

/// The GUID of a debug port.
const DEBUG_PORT: [u8; 16] = [
    0xd2, 0xe8, 0xa4, 0xeb, 0x58, 0x38, 0xec, 0x41, 0xa2, 0x81, 0x26, 0x47, 0xba, 0x96, 0x60, 0xd0,
];

/// The GUID of the flow control of a serial port (UEFI 2.10, 10.3.4.18).
const UART_FLOW_CONTROL: [u8; 16] = [
    0x9d, 0x9a, 0x49, 0x37, 0x2f, 0x54, 0x89, 0x4c, 0xa0, 0x26, 0x35, 0xda, 0x14, 0x20, 0x94, 0xe4,
];

/// The GUID of a SAS device (UEFI 2.10, 10.3.4.19).
const SAS: [u8; 16] = [
    0xb4, 0xdd, 0x87, 0xd4, 0x8b, 0, 0xd9, 0x11, 0xaf, 0xdc, 0, 0x10, 0x83, 0xff, 0xca, 0x4d,
];

/// The forms of nodes of vendors.
static VENDOR: [NodeForm; 10] = [
    NodeForm {
        name: "VenPcAnsi",
        arguments: Listed(&[], &[Bytes(&PC_ANSI)]),
        is_shortcut: true,
        ..VENDOR_FORM
    },
    NodeForm {
        name: "VenVt100",
        arguments: Listed(&[], &[Bytes(&VT100)]),
        is_shortcut: true,
        ..VENDOR_FORM
    },
    NodeForm {
        name: "VenVt100Plus",
        arguments: Listed(&[], &[Bytes(&VT100_PLUS)]),
        is_shortcut: true,
        ..VENDOR_FORM
    },
    NodeForm {
        name: "VenUtf8",
        arguments: Listed(&[], &[Bytes(&UTF8)]),
        is_shortcut: true,
        ..VENDOR_FORM
    },
    NodeForm {
        name: "DebugPort",
        arguments: Listed(&[], &[Bytes(&DEBUG_PORT)]),
        is_shortcut: true,
        ..VENDOR_FORM
    },
    NodeForm {
        name: "UartFlowCtrl",
        arguments: Listed(
            &[Parameter {
                argument: Argument::Word(Words::FlowControl, Size::Four),
                default: "None",
            }],
            &[Bytes(&UART_FLOW_CONTROL), Value(0)],
        ),
        is_shortcut: true,
        ..VENDOR_FORM
    },
    NodeForm {
        name: "SAS",
        arguments: Listed(
            &[U64, U64, U16, NO_TOPOLOGY, ZERO, ZERO, ZERO, U32],
            &[
                Bytes(&SAS),
                Value(7),
                Value(0),
                Value(1),
                Value(3),
                Value(2),
            ],
        ),
        is_shortcut: true,
        ..VENDOR_FORM
    },
    NodeForm {
        name: "SAS",
        arguments: Listed(
            &[
                U64,
                U64,
                U16,
                SAS_INTERFACE,
                SAS_LOCATION,
                SAS_CONNECTION,
                DRIVE_BAY,
                U32,
            ],
            &[
                Bytes(&SAS),
                Value(7),
                Value(0),
                Value(1),
                Sum(3, 4),
                Value(2),
            ],
        ),
        is_shortcut: true,
        ..VENDOR_FORM
    },
    NodeForm {
        name: "SAS",
        arguments: Listed(
            &[U64, U64, U16, U16, ZERO, ZERO, ZERO, U32],
            &[
                Bytes(&SAS),
                Value(7),
                Value(0),
                Value(1),
                Value(3),
                Value(2),
            ],
        ),
        is_shortcut: true,
        ..VENDOR_FORM
    },
    NodeForm {
        name: "VenMsg",
        arguments: Listed(&[GUID, VENDOR_DATA], &[Value(0), Value(1)]),
        ..VENDOR_FORM
    },
];

/// Returns the forms of nodes of vendors.
#[inline]
pub(crate) fn forms() -> &'static [NodeForm] {
    &VENDOR
}
