//! Nodes of the type MESSAGING that lead to networks, to Bluetooth and to serial devices.

use super::{EIGHT, GUID, ONE, TEXT, TWO, U8, U16, U32, U64};
use crate::form::{Form, Head::Is, Part::Bytes, Part::Of};
use crate::kind::{Extent, Kind, Kind::*};

const NO_PORTS: &[u8] = &[0; 4];
const IPV4_OR_NONE: Kind = OneOf(&[Empty(&[0; 4]), Ipv4(4)]);
const IPV6_OR_NONE: Kind = OneOf(&[Empty(&[0; 16]), Ipv6]);
const PROTOCOL: Kind = OneOf(&[Empty(&[0; 2]), Word("TCP", &[6, 0]), Word("UDP", &[17, 0]), TWO]);
const IPV4_ORIGIN: Kind = OneOf(&[Empty(&[0]), Word("DHCP", &[0]), Word("Static", &[1])]);
const IPV6_ORIGIN: Kind = OneOf(&[
    Empty(&[2]),
    Word("Static", &[0]),
    Word("StatelessAutoConfigure", &[1]),
    Word("StatefulAutoConfigure", &[2]),
]);
const BLUETOOTH: Kind = Digits("XXXXXXXXXXXX", &[0, 1, 2, 3, 4, 5]);
const BAUD_RATE: Kind = OneOf(&[Empty(&[0; 8]), Word("DEFAULT", &[0; 8]), EIGHT]);
const DATA_BITS: Kind = OneOf(&[Empty(&[0]), Word("DEFAULT", &[0]), ONE]);
const PARITY: Kind = OneOf(&[
    Empty(&[0]),
    Word("D", &[0]),
    Word("N", &[1]),
    Word("E", &[2]),
    Word("O", &[3]),
    Word("M", &[4]),
    Word("S", &[5]),
]);
const STOP_BITS: Kind =
    OneOf(&[Empty(&[0]), Word("D", &[0]), Word("1", &[1]), Word("1.5", &[2]), Word("2", &[3])]);

#[rustfmt::skip]
pub const FORMS: &[Form] = &[
    Form::new(
        "Infiniband", Is(3, 9), &[U32, GUID, U64, U64, U64],
        &[Of(0), Of(1), Of(2), Of(3), Of(4)],
    ),
    Form::new("MAC", Is(3, 11), &[Data(Extent::Padded(32)), U8], &[Of(0), Of(1)]),
    Form::new(
        "IPv4", Is(3, 12),
        &[Ipv4(4), PROTOCOL, IPV4_ORIGIN, IPV4_OR_NONE, IPV4_OR_NONE, IPV4_OR_NONE],
        &[Of(3), Of(0), Bytes(NO_PORTS), Of(1), Of(2), Of(4), Of(5)],
    ),
    Form::new(
        "IPv6", Is(3, 13), &[Ipv6, PROTOCOL, IPV6_ORIGIN, IPV6_OR_NONE, U8, IPV6_OR_NONE],
        &[Of(3), Of(0), Bytes(NO_PORTS), Of(1), Of(2), Of(4), Of(5)],
    ),
    Form::new(
        "Uart", Is(3, 14), &[BAUD_RATE, DATA_BITS, PARITY, STOP_BITS],
        &[Bytes(&[0; 4]), Of(0), Of(1), Of(2), Of(3)],
    ),
    Form::new("Vlan", Is(3, 20), &[U16], &[Of(0)]),
    Form::new("Uri", Is(3, 24), &[TEXT], &[Of(0)]),
    Form::new("Bluetooth", Is(3, 27), &[BLUETOOTH], &[Of(0)]),
    Form::new("Wi-Fi", Is(3, 28), &[Text(Extent::Padded(32))], &[Of(0)]),
    Form::new("BluetoothLE", Is(3, 30), &[BLUETOOTH, U8], &[Of(0), Of(1)]),
    Form::list("Dns", Is(3, 31), &[Ipv4(16)], &[Bytes(&[0]), Of(0)]),
    Form::list("Dns", Is(3, 31), &[Ipv6], &[Bytes(&[1]), Of(0)]),
];
