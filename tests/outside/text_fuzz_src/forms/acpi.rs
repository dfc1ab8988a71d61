//! Nodes of the type ACPI.

use super::{FOUR, TEXT, U32};
use crate::form::{Form, Head::Is, Part, Part::Bytes, Part::Of};
use crate::kind::{Kind, Kind::*};

const HID: Kind = OneOf(&[EISA_ID, FOUR]);
const EISA_ID: Kind = Eisa("LLLXXXX");
const EISA_ID_OR_ZERO: Kind = OneOf(&[Empty(&[0; 4]), Word("0", &[0; 4]), EISA_ID]);
const NUL: Part = Bytes(&[0]);

#[rustfmt::skip]
pub const FORMS: &[Form] = &[
    Form::new("Acpi", Is(2, 1), &[HID, U32], &[Of(0), Of(1)]),
    Form::new("PciRoot", Is(2, 1), &[U32], &[Bytes(&[0xd0, 0x41, 0x03, 0x0a]), Of(0)]),
    Form::new("PcieRoot", Is(2, 1), &[U32], &[Bytes(&[0xd0, 0x41, 0x08, 0x0a]), Of(0)]),
    Form::new("Floppy", Is(2, 1), &[U32], &[Bytes(&[0xd0, 0x41, 0x04, 0x06]), Of(0)]),
    Form::new("Keyboard", Is(2, 1), &[U32], &[Bytes(&[0xd0, 0x41, 0x01, 0x03]), Of(0)]),
    Form::new("Serial", Is(2, 1), &[U32], &[Bytes(&[0xd0, 0x41, 0x01, 0x05]), Of(0)]),
    Form::new("ParallelPort", Is(2, 1), &[U32], &[Bytes(&[0xd0, 0x41, 0x01, 0x04]), Of(0)]),
    Form::new(
        "AcpiEx", Is(2, 2), &[EISA_ID, EISA_ID, U32, TEXT, TEXT, TEXT],
        &[Of(0), Of(2), Of(1), Of(3), NUL, Of(5), NUL, Of(4), NUL],
    ),
    Form::new(
        "AcpiExp", Is(2, 2), &[EISA_ID, EISA_ID_OR_ZERO, TEXT],
        &[Of(0), Bytes(&[0; 4]), Of(1), NUL, Of(2), NUL, NUL],
    ),
    Form::list("AcpiAdr", Is(2, 3), &[FOUR], &[Of(0)]),
];
