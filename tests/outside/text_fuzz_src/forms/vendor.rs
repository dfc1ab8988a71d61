//! Nodes of the type MESSAGING with the GUID of a vendor.

use super::storage::{BAY, CONNECTION, INTERFACE, LOCATION, NOTHING, TOPOLOGY};
use super::{DATA, GUID, U16, U32, U64};
use crate::form::{Form, Head::Is, Part, Part::Bits, Part::Bytes, Part::Of};
use crate::kind::{Kind, Kind::*};

const FLOW_CONTROL: Kind = OneOf(&[
    Empty(&[0; 4]),
    Word("None", &[0; 4]),
    Word("Hardware", &[1, 0, 0, 0]),
    Word("XonXoff", &[2, 0, 0, 0]),
]);

/// d487ddb4-008b-11d9-afdc-001083ffca4d
const SAS: Part = Bytes(b"\xb4\xdd\x87\xd4\x8b\x00\xd9\x11\xaf\xdc\x00\x10\x83\xff\xca\x4d");
/// 37499a9d-542f-4c89-a026-35da142094e4
const UART: Part = Bytes(b"\x9d\x9a\x49\x37\x2f\x54\x89\x4c\xa0\x26\x35\xda\x14\x20\x94\xe4");
/// e0c14753-f9be-11d2-9a0c-0090273fc14d
const PC_ANSI: Part = Bytes(b"\x53\x47\xc1\xe0\xbe\xf9\xd2\x11\x9a\x0c\x00\x90\x27\x3f\xc1\x4d");
/// dfa66065-b419-11d3-9a2d-0090273fc14d
const VT100: Part = Bytes(b"\x65\x60\xa6\xdf\x19\xb4\xd3\x11\x9a\x2d\x00\x90\x27\x3f\xc1\x4d");
/// 7baec70b-57e0-4c76-8e87-2f9e28088343
const VT100_PLUS: Part = Bytes(b"\x0b\xc7\xae\x7b\xe0\x57\x76\x4c\x8e\x87\x2f\x9e\x28\x08\x83\x43");
/// ad15a0d6-8bec-4acf-a073-d01de77e2d88
const VT_UTF8: Part = Bytes(b"\xd6\xa0\x15\xad\xec\x8b\xcf\x4a\xa0\x73\xd0\x1d\xe7\x7e\x2d\x88");
/// eba4e8d2-3858-41ec-a281-2647ba9660d0
const DEBUG_PORT: Part = Bytes(b"\xd2\xe8\xa4\xeb\x58\x38\xec\x41\xa2\x81\x26\x47\xba\x96\x60\xd0");

#[rustfmt::skip]
pub const FORMS: &[Form] = &[
    Form::new("VenMsg", Is(3, 10), &[GUID, DATA], &[Of(0), Of(1)]),
    Form::new("VenPcAnsi", Is(3, 10), &[], &[PC_ANSI]),
    Form::new("VenVt100", Is(3, 10), &[], &[VT100]),
    Form::new("VenVt100Plus", Is(3, 10), &[], &[VT100_PLUS]),
    Form::new("VenUtf8", Is(3, 10), &[], &[VT_UTF8]),
    Form::new("DebugPort", Is(3, 10), &[], &[DEBUG_PORT]),
    Form::new("UartFlowCtrl", Is(3, 10), &[FLOW_CONTROL], &[UART, Of(0)]),
    Form::new(
        "SAS", Is(3, 10), &[U64, U64, U16, INTERFACE, LOCATION, CONNECTION, BAY, U32],
        &[SAS, Of(7), Of(0), Of(1), Bits(&[3, 4, 5, 6]), Of(2)],
    ),
    Form::new(
        "SAS", Is(3, 10), &[U64, U64, U16, TOPOLOGY, NOTHING, NOTHING, NOTHING, U32],
        &[SAS, Of(7), Of(0), Of(1), Of(3), Of(2)],
    ),
];
