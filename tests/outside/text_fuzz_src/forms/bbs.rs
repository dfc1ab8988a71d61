//! Nodes of the type BIOS_BOOT_SPEC.

use super::{TEXT, TWO, U16};
use crate::form::{Form, Head::Is, Part::Bytes, Part::Of};
use crate::kind::{Kind, Kind::*};

const DEVICE: Kind = OneOf(&[
    Empty(&[0; 2]),
    Word("Floppy", &[1, 0]),
    Word("HD", &[2, 0]),
    Word("CDROM", &[3, 0]),
    Word("PCMCIA", &[4, 0]),
    Word("USB", &[5, 0]),
    Word("Network", &[6, 0]),
    TWO,
]);

#[rustfmt::skip]
pub const FORMS: &[Form] = &[
    Form::new("BBS", Is(5, 1), &[DEVICE, TEXT, U16], &[Of(0), Of(2), Of(1), Bytes(&[0])]),
];
