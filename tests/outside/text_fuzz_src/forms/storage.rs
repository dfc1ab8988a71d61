//! Nodes of the type MESSAGING that lead to storage.

use super::{BIG_U64, ONE, TEXT, U8, U16, U32, U64};
use crate::form::{Form, Head::Is, Part::Bits, Part::Bytes, Part::Of};
use crate::kind::{Code, Kind, Kind::*};

const CHANNEL: Kind = OneOf(&[Empty(&[0]), Word("Primary", &[0]), Word("Secondary", &[1]), ONE]);
const DEVICE: Kind = OneOf(&[Empty(&[0]), Word("Master", &[0]), Word("Slave", &[1]), ONE]);
const MULTIPLIER: Kind = OneOf(&[Empty(&[0xff; 2]), U16]);
const EUI64: Kind = Digits("XX-XX-XX-XX-XX-XX-XX-XX", &[7, 6, 5, 4, 3, 2, 1, 0]);
const NODE_GUID: Kind = Digits("XXXXXXXXXXXXXXXX", &[7, 6, 5, 4, 3, 2, 1, 0]);

/// What is known of a SAS device, in two bytes (10.3.4.20).
pub(super) const INTERFACE: Kind = OneOf(&[Word("SAS", &[0; 2]), Word("SATA", &[0x10, 0])]);
pub(super) const LOCATION: Kind = OneOf(&[Word("Internal", &[0; 2]), Word("External", &[0x20, 0])]);
pub(super) const CONNECTION: Kind = OneOf(&[Word("Direct", &[0; 2]), Word("Expanded", &[0x40, 0])]);
pub(super) const BAY: Kind = OneOf(&[Empty(&[1, 0]), Number(0x100, Code::Bay)]);
pub(super) const TOPOLOGY: Kind = OneOf(&[Word("NoTopology", &[0; 2]), U16]);
pub(super) const NOTHING: Kind = OneOf(&[Empty(&[]), Word("0", &[])]);

/// The options of a login, in two bytes (10.3.4.21).
const NO_OPTION: &[u8] = &[0; 2];
const HEADERS: Kind = OneOf(&[Empty(NO_OPTION), Word("None", NO_OPTION), Word("CRC32C", &[2, 0])]);
const DIGESTED: Kind = OneOf(&[Empty(NO_OPTION), Word("None", NO_OPTION), Word("CRC32C", &[8, 0])]);
const AUTHENTICATION: Kind = OneOf(&[
    Empty(NO_OPTION),
    Word("None", &[0, 0x08]),
    Word("CHAP_UNI", &[0, 0x10]),
    Word("CHAP_BI", NO_OPTION),
]);
const PROTOCOL: Kind = OneOf(&[Empty(&[0; 2]), Word("TCP", &[0; 2])]);

#[rustfmt::skip]
pub const FORMS: &[Form] = &[
    Form::new("Ata", Is(3, 1), &[CHANNEL, DEVICE, U16], &[Of(0), Of(1), Of(2)]),
    Form::new("Scsi", Is(3, 2), &[U16, U16], &[Of(0), Of(1)]),
    Form::new("Fibre", Is(3, 3), &[U64, U64], &[Bytes(&[0; 4]), Of(0), Of(1)]),
    Form::new("FibreEx", Is(3, 21), &[BIG_U64, BIG_U64], &[Bytes(&[0; 4]), Of(0), Of(1)]),
    Form::new("I1394", Is(3, 4), &[NODE_GUID], &[Bytes(&[0; 4]), Of(0)]),
    Form::new("I2O", Is(3, 6), &[U32], &[Of(0)]),
    Form::new("Unit", Is(3, 17), &[U8], &[Of(0)]),
    Form::new("Sata", Is(3, 18), &[U16, MULTIPLIER, U16], &[Of(0), Of(1), Of(2)]),
    Form::new(
        "iSCSI", Is(3, 19), &[TEXT, U16, BIG_U64, HEADERS, DIGESTED, AUTHENTICATION, PROTOCOL],
        &[Of(6), Bits(&[3, 4, 5]), Of(2), Of(1), Of(0), Bytes(&[0])],
    ),
    Form::new(
        "SasEx", Is(3, 22), &[BIG_U64, BIG_U64, U16, INTERFACE, LOCATION, CONNECTION, BAY],
        &[Of(0), Of(1), Bits(&[3, 4, 5, 6]), Of(2)],
    ),
    Form::new(
        "SasEx", Is(3, 22), &[BIG_U64, BIG_U64, U16, TOPOLOGY, NOTHING, NOTHING, NOTHING],
        &[Of(0), Of(1), Of(3), Of(2)],
    ),
    Form::new("NVMe", Is(3, 23), &[U32, EUI64], &[Of(0), Of(1)]),
    Form::new("UFS", Is(3, 25), &[U8, U8], &[Of(0), Of(1)]),
    Form::new("SD", Is(3, 26), &[U8], &[Of(0)]),
    Form::new("eMMC", Is(3, 29), &[U8], &[Of(0)]),
];
