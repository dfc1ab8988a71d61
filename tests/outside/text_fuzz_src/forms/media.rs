//! Nodes of the type MEDIA. A name of a file isn't among these forms.

use super::storage::NOTHING;
use super::{DATA, GUID, ONE, U16, U32, U64};
use crate::form::{Form, Head::Is, Part, Part::Bytes, Part::Of};
use crate::kind::{Kind, Kind::*};

const MBR: Kind = Word("MBR", &[1, 1]);
const GPT: Kind = Word("GPT", &[2, 2]);

/// 77ab535a-45fc-624b-5560-f7b281d1f96e
const DISK: Part = Bytes(b"\x5a\x53\xab\x77\xfc\x45\x4b\x62\x55\x60\xf7\xb2\x81\xd1\xf9\x6e");
/// 3d5abd30-4175-87ce-6d64-d2ade523c4bb
const CD: Part = Bytes(b"\x30\xbd\x5a\x3d\x75\x41\xce\x87\x6d\x64\xd2\xad\xe5\x23\xc4\xbb");
/// 5cea02c9-4d07-69d3-269f-4496fbe096f9
const LASTING_DISK: Part =
    Bytes(b"\xc9\x02\xea\x5c\x07\x4d\xd3\x69\x26\x9f\x44\x96\xfb\xe0\x96\xf9");
/// 08018188-42cd-bb48-100f-5387d53ded3d
const LASTING_CD: Part = Bytes(b"\x88\x81\x01\x08\xcd\x42\x48\xbb\x10\x0f\x53\x87\xd5\x3d\xed\x3d");

const fn ram_disk(name: &'static str, data: &'static [Part]) -> Form {
    Form::new(name, Is(4, 9), &[U64, U64, U16], data)
}

#[rustfmt::skip]
pub const FORMS: &[Form] = &[
    Form::new(
        "HD", Is(4, 1), &[U32, MBR, U32, U64, U64],
        &[Of(0), Of(3), Of(4), Of(2), Bytes(&[0; 12]), Of(1)],
    ),
    Form::new("HD", Is(4, 1), &[U32, GPT, GUID, U64, U64], &[Of(0), Of(3), Of(4), Of(2), Of(1)]),
    Form::new(
        "HD", Is(4, 1), &[U32, ONE, NOTHING, U64, U64],
        &[Of(0), Of(3), Of(4), Bytes(&[0; 16]), Bytes(&[0]), Of(1)],
    ),
    Form::new("CDROM", Is(4, 2), &[U32, U64, U64], &[Of(0), Of(1), Of(2)]),
    Form::new("VenMedia", Is(4, 3), &[GUID, DATA], &[Of(0), Of(1)]),
    Form::new("Media", Is(4, 5), &[GUID], &[Of(0)]),
    Form::new("FvFile", Is(4, 6), &[GUID], &[Of(0)]),
    Form::new("Fv", Is(4, 7), &[GUID], &[Of(0)]),
    Form::new("Offset", Is(4, 8), &[U64, U64], &[Bytes(&[0; 4]), Of(0), Of(1)]),
    Form::new("RamDisk", Is(4, 9), &[U64, U64, U16, GUID], &[Of(0), Of(1), Of(3), Of(2)]),
    ram_disk("VirtualDisk", &[Of(0), Of(1), DISK, Of(2)]),
    ram_disk("VirtualCD", &[Of(0), Of(1), CD, Of(2)]),
    ram_disk("PersistentVirtualDisk", &[Of(0), Of(1), LASTING_DISK, Of(2)]),
    ram_disk("PersistentVirtualCD", &[Of(0), Of(1), LASTING_CD, Of(2)]),
];
