//! Nodes of each type.

use super::{DATA, U8};
use crate::form::{Form, Head, Part::Of};

const fn of_type(name: &'static str, device_type: u8) -> Form {
    Form::new(name, Head::OfType(device_type), &[U8, DATA], &[Of(1)])
}

#[rustfmt::skip]
pub const FORMS: &[Form] = &[
    Form::new("Path", Head::Any, &[U8, U8, DATA], &[Of(2)]),
    of_type("HardwarePath", 1),
    of_type("AcpiPath", 2),
    of_type("Msg", 3),
    of_type("MediaPath", 4),
    of_type("BbsPath", 5),
];
