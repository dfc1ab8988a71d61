// @generated from proved source. It is not edited.

use crate::formats::uefi_path_text::form::Arguments::Listed;
use crate::formats::uefi_path_text::form::Part::{Bytes, Value};
use crate::formats::uefi_path_text::form::Source::Known;
use crate::formats::uefi_path_text::form::argument::Argument;
use crate::formats::uefi_path_text::form::parameters::{CLASS, IDENTIFIER, U8, U16};
use crate::formats::uefi_path_text::form::{NodeForm, PLAIN, Parameter};

/// What the forms have in common.
const MESSAGING_FORM: NodeForm = NodeForm {
    device_type: Known(3),
    ..PLAIN
};

/// The arguments where the class is known: a vendor, a product, a subclass and a protocol.
const OF_CLASS: [Parameter; 4] = [IDENTIFIER, IDENTIFIER, CLASS, CLASS];

/// The arguments where the class and the subclass are known: a vendor, a product and a protocol.
const OF_SUBCLASS: [Parameter; 3] = [IDENTIFIER, IDENTIFIER, CLASS];

/// The forms of USB nodes.
static USB: [NodeForm; 18] = [
    NodeForm {
        name: "USB",
        sub_type: Known(5),
        arguments: Listed(&[U8, U8], &[Value(0), Value(1)]),
        ..MESSAGING_FORM
    },
    NodeForm {
        name: "UsbWwid",
        sub_type: Known(16),
        arguments: Listed(
            &[
                U16,
                U16,
                U16,
                Parameter {
                    argument: Argument::Quoted,
                    default: "",
                },
            ],
            &[Value(2), Value(0), Value(1), Value(3)],
        ),
        ..MESSAGING_FORM
    },
    NodeForm {
        name: "UsbAudio",
        sub_type: Known(15),
        arguments: Listed(
            &OF_CLASS,
            &[Value(0), Value(1), Bytes(&[1]), Value(2), Value(3)],
        ),
        ..MESSAGING_FORM
    },
    NodeForm {
        name: "UsbCDCControl",
        sub_type: Known(15),
        arguments: Listed(
            &OF_CLASS,
            &[Value(0), Value(1), Bytes(&[2]), Value(2), Value(3)],
        ),
        ..MESSAGING_FORM
    },
    NodeForm {
        name: "UsbHID",
        sub_type: Known(15),
        arguments: Listed(
            &OF_CLASS,
            &[Value(0), Value(1), Bytes(&[3]), Value(2), Value(3)],
        ),
        ..MESSAGING_FORM
    },
    NodeForm {
        name: "UsbImage",
        sub_type: Known(15),
        arguments: Listed(
            &OF_CLASS,
            &[Value(0), Value(1), Bytes(&[6]), Value(2), Value(3)],
        ),
        ..MESSAGING_FORM
    },
    NodeForm {
        name: "UsbPrinter",
        sub_type: Known(15),
        arguments: Listed(
            &OF_CLASS,
            &[Value(0), Value(1), Bytes(&[7]), Value(2), Value(3)],
        ),
        ..MESSAGING_FORM
    },
    NodeForm {
        name: "UsbMassStorage",
        sub_type: Known(15),
        arguments: Listed(
            &OF_CLASS,
            &[Value(0), Value(1), Bytes(&[8]), Value(2), Value(3)],
        ),
        ..MESSAGING_FORM
    },
    NodeForm {
        name: "UsbHub",
        sub_type: Known(15),
        arguments: Listed(
            &OF_CLASS,
            &[Value(0), Value(1), Bytes(&[9]), Value(2), Value(3)],
        ),
        ..MESSAGING_FORM
    },
    NodeForm {
        name: "UsbCDCData",
        sub_type: Known(15),
        arguments: Listed(
            &OF_CLASS,
            &[Value(0), Value(1), Bytes(&[0x0a]), Value(2), Value(3)],
        ),
        ..MESSAGING_FORM
    },
    NodeForm {
        name: "UsbSmartCard",
        sub_type: Known(15),
        arguments: Listed(
            &OF_CLASS,
            &[Value(0), Value(1), Bytes(&[0x0b]), Value(2), Value(3)],
        ),
        ..MESSAGING_FORM
    },
    NodeForm {
        name: "UsbVideo",
        sub_type: Known(15),
        arguments: Listed(
            &OF_CLASS,
            &[Value(0), Value(1), Bytes(&[0x0e]), Value(2), Value(3)],
        ),
        ..MESSAGING_FORM
    },
    NodeForm {
        name: "UsbDiagnostic",
        sub_type: Known(15),
        arguments: Listed(
            &OF_CLASS,
            &[Value(0), Value(1), Bytes(&[0xdc]), Value(2), Value(3)],
        ),
        ..MESSAGING_FORM
    },
    NodeForm {
        name: "UsbWireless",
        sub_type: Known(15),
        arguments: Listed(
            &OF_CLASS,
            &[Value(0), Value(1), Bytes(&[0xe0]), Value(2), Value(3)],
        ),
        ..MESSAGING_FORM
    },
    NodeForm {
        name: "UsbDeviceFirmwareUpdate",
        sub_type: Known(15),
        arguments: Listed(
            &OF_SUBCLASS,
            &[Value(0), Value(1), Bytes(&[0xfe]), Bytes(&[1]), Value(2)],
        ),
        ..MESSAGING_FORM
    },
    NodeForm {
        name: "UsbIrdaBridge",
        sub_type: Known(15),
        arguments: Listed(
            &OF_SUBCLASS,
            &[Value(0), Value(1), Bytes(&[0xfe]), Bytes(&[2]), Value(2)],
        ),
        ..MESSAGING_FORM
    },
    NodeForm {
        name: "UsbTestAndMeasurement",
        sub_type: Known(15),
        arguments: Listed(
            &OF_SUBCLASS,
            &[Value(0), Value(1), Bytes(&[0xfe]), Bytes(&[3]), Value(2)],
        ),
        ..MESSAGING_FORM
    },
    NodeForm {
        name: "UsbClass",
        sub_type: Known(15),
        arguments: Listed(
            &[IDENTIFIER, IDENTIFIER, CLASS, CLASS, CLASS],
            &[Value(0), Value(1), Value(2), Value(3), Value(4)],
        ),
        ..MESSAGING_FORM
    },
];

/// Returns the forms of USB nodes.
#[inline]
pub(crate) fn forms() -> &'static [NodeForm] {
    &USB
}
