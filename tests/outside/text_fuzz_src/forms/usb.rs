//! Nodes of the type MESSAGING that lead to USB devices.

use super::{U8, U16};
use crate::form::{Form, Head::Is, Part, Part::Bytes, Part::Of};
use crate::kind::{Kind, Kind::*};

const VENDOR: Kind = OneOf(&[Empty(&[0xff; 2]), U16]);
const CLASS: Kind = OneOf(&[Empty(&[0xff]), U8]);

const fn of_class(name: &'static str, data: &'static [Part]) -> Form {
    Form::new(name, Is(3, 15), &[VENDOR, VENDOR, CLASS, CLASS], data)
}

const fn of_subclass(name: &'static str, data: &'static [Part]) -> Form {
    Form::new(name, Is(3, 15), &[VENDOR, VENDOR, CLASS], data)
}

#[rustfmt::skip]
pub const FORMS: &[Form] = &[
    Form::new("USB", Is(3, 5), &[U8, U8], &[Of(0), Of(1)]),
    Form::new("UsbWwid", Is(3, 16), &[U16, U16, U16, Serial], &[Of(2), Of(0), Of(1), Of(3)]),
    Form::new(
        "UsbClass", Is(3, 15), &[VENDOR, VENDOR, CLASS, CLASS, CLASS],
        &[Of(0), Of(1), Of(2), Of(3), Of(4)],
    ),
    of_class("UsbAudio", &[Of(0), Of(1), Bytes(&[0x01]), Of(2), Of(3)]),
    of_class("UsbCDCControl", &[Of(0), Of(1), Bytes(&[0x02]), Of(2), Of(3)]),
    of_class("UsbHID", &[Of(0), Of(1), Bytes(&[0x03]), Of(2), Of(3)]),
    of_class("UsbImage", &[Of(0), Of(1), Bytes(&[0x06]), Of(2), Of(3)]),
    of_class("UsbPrinter", &[Of(0), Of(1), Bytes(&[0x07]), Of(2), Of(3)]),
    of_class("UsbMassStorage", &[Of(0), Of(1), Bytes(&[0x08]), Of(2), Of(3)]),
    of_class("UsbHub", &[Of(0), Of(1), Bytes(&[0x09]), Of(2), Of(3)]),
    of_class("UsbCDCData", &[Of(0), Of(1), Bytes(&[0x0a]), Of(2), Of(3)]),
    of_class("UsbSmartCard", &[Of(0), Of(1), Bytes(&[0x0b]), Of(2), Of(3)]),
    of_class("UsbVideo", &[Of(0), Of(1), Bytes(&[0x0e]), Of(2), Of(3)]),
    of_class("UsbDiagnostic", &[Of(0), Of(1), Bytes(&[0xdc]), Of(2), Of(3)]),
    of_class("UsbWireless", &[Of(0), Of(1), Bytes(&[0xe0]), Of(2), Of(3)]),
    of_subclass("UsbDeviceFirmwareUpdate", &[Of(0), Of(1), Bytes(&[0xfe, 1]), Of(2)]),
    of_subclass("UsbIrdaBridge", &[Of(0), Of(1), Bytes(&[0xfe, 2]), Of(2)]),
    of_subclass("UsbTestAndMeasurement", &[Of(0), Of(1), Bytes(&[0xfe, 3]), Of(2)]),
];
