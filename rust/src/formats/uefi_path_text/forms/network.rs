// @generated from proved source. It is not edited.

use crate::formats::uefi_path_text::form::Arguments::{Listed, Repeated};
use crate::formats::uefi_path_text::form::Part::{Bytes, Padded, Value};
use crate::formats::uefi_path_text::form::Source::Known;
use crate::formats::uefi_path_text::form::argument::{Argument, Base};
use crate::formats::uefi_path_text::form::parameters::{
    ADDRESS, DECIMAL_U16, GUID, IPV4, IPV6, OPTIONAL_IPV4, OPTIONAL_IPV6, PROTOCOL, U8, U32, U64,
};
use crate::formats::uefi_path_text::form::size::Size;
use crate::formats::uefi_path_text::form::words::Words;
use crate::formats::uefi_path_text::form::{NodeForm, PLAIN, Parameter};

/// What the forms have in common.
const MESSAGING_FORM: NodeForm = NodeForm {
    device_type: Known(3),
    ..PLAIN
};

/// The forms of nodes of networks and serial ports.
static NETWORK: [NodeForm; 12] = [
    NodeForm {
        name: "MAC",
        sub_type: Known(11),
        arguments: Listed(
            &[
                Parameter {
                    argument: Argument::HardwareAddress,
                    default: "",
                },
                U8,
            ],
            &[Padded(0), Value(1)],
        ),
        ..MESSAGING_FORM
    },
    NodeForm {
        name: "IPv4",
        sub_type: Known(12),
        arguments: Listed(
            &[
                IPV4,
                PROTOCOL,
                Parameter {
                    argument: Argument::Word(Words::Ipv4Origin, Size::One),
                    default: "DHCP",
                },
                OPTIONAL_IPV4,
                OPTIONAL_IPV4,
                OPTIONAL_IPV4,
            ],
            &[
                Value(3),
                Value(0),
                Bytes(&[0; 4]),
                Value(1),
                Value(2),
                Value(4),
                Value(5),
            ],
        ),
        first_displayed: 0,
        displayed: 1,
        reserved: Some(2),
        ..MESSAGING_FORM
    },
    NodeForm {
        name: "IPv6",
        sub_type: Known(13),
        arguments: Listed(
            &[
                IPV6,
                PROTOCOL,
                Parameter {
                    argument: Argument::Word(Words::Ipv6Origin, Size::One),
                    default: "StatefulAutoConfigure",
                },
                OPTIONAL_IPV6,
                U8,
                OPTIONAL_IPV6,
            ],
            &[
                Value(3),
                Value(0),
                Bytes(&[0; 4]),
                Value(1),
                Value(2),
                Value(4),
                Value(5),
            ],
        ),
        first_displayed: 0,
        displayed: 1,
        reserved: Some(2),
        ..MESSAGING_FORM
    },
    NodeForm {
        name: "Vlan",
        sub_type: Known(20),
        arguments: Listed(&[DECIMAL_U16], &[Value(0)]),
        ..MESSAGING_FORM
    },
    NodeForm {
        name: "Infiniband",
        sub_type: Known(9),
        arguments: Listed(
            &[U32, GUID, U64, U64, U64],
            &[Value(0), Value(1), Value(2), Value(3), Value(4)],
        ),
        ..MESSAGING_FORM
    },
    NodeForm {
        name: "Uart",
        sub_type: Known(14),
        arguments: Listed(
            &[
                Parameter {
                    argument: Argument::Word(Words::Default, Size::Eight),
                    default: "DEFAULT",
                },
                Parameter {
                    argument: Argument::Word(Words::Default, Size::One),
                    default: "DEFAULT",
                },
                Parameter {
                    argument: Argument::Word(Words::Parity, Size::One),
                    default: "D",
                },
                Parameter {
                    argument: Argument::Word(Words::StopBits, Size::One),
                    default: "D",
                },
            ],
            &[Bytes(&[0; 4]), Value(0), Value(1), Value(2), Value(3)],
        ),
        reserved: Some(0),
        ..MESSAGING_FORM
    },
    NodeForm {
        name: "Uri",
        sub_type: Known(24),
        arguments: Listed(
            &[Parameter {
                argument: Argument::Text(65531),
                default: "",
            }],
            &[Value(0)],
        ),
        ..MESSAGING_FORM
    },
    NodeForm {
        name: "Bluetooth",
        sub_type: Known(27),
        arguments: Listed(&[ADDRESS], &[Value(0)]),
        ..MESSAGING_FORM
    },
    NodeForm {
        name: "BluetoothLE",
        sub_type: Known(30),
        arguments: Listed(
            &[
                ADDRESS,
                Parameter {
                    argument: Argument::Number(Size::One, Base::LongHex),
                    default: "0",
                },
            ],
            &[Value(0), Value(1)],
        ),
        ..MESSAGING_FORM
    },
    NodeForm {
        name: "Wi-Fi",
        sub_type: Known(28),
        arguments: Listed(
            &[Parameter {
                argument: Argument::Text(32),
                default: "",
            }],
            &[Padded(0)],
        ),
        ..MESSAGING_FORM
    },
    NodeForm {
        name: "Dns",
        sub_type: Known(31),
        arguments: Repeated(&[0], Argument::Ipv4Server),
        ..MESSAGING_FORM
    },
    NodeForm {
        name: "Dns",
        sub_type: Known(31),
        arguments: Repeated(&[1], Argument::Ipv6),
        ..MESSAGING_FORM
    },
];

/// Returns the forms of nodes of networks and serial ports.
#[inline]
pub(crate) fn forms() -> &'static [NodeForm] {
    &NETWORK
}
