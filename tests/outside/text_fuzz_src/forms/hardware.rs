//! Nodes of the type HARDWARE.

use super::{DATA, GUID, U8, U32, U64};
use crate::form::{Form, Head::Is, Part::Of};

#[rustfmt::skip]
pub const FORMS: &[Form] = &[
    Form::new("Pci", Is(1, 1), &[U8, U8], &[Of(1), Of(0)]),
    Form::new("PcCard", Is(1, 2), &[U8], &[Of(0)]),
    Form::new("MemoryMapped", Is(1, 3), &[U32, U64, U64], &[Of(0), Of(1), Of(2)]),
    Form::new("VenHw", Is(1, 4), &[GUID, DATA], &[Of(0), Of(1)]),
    Form::new("Ctrl", Is(1, 5), &[U32], &[Of(0)]),
    Form::new("BMC", Is(1, 6), &[U8, U64], &[Of(0), Of(1)]),
];
