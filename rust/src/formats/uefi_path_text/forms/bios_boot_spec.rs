// @generated from proved source. It is not edited.

use crate::formats::uefi_path_text::form::Arguments::Listed;
use crate::formats::uefi_path_text::form::Part::{Bytes, Value};
use crate::formats::uefi_path_text::form::Source::Known;
use crate::formats::uefi_path_text::form::argument::Argument;
use crate::formats::uefi_path_text::form::parameters::U16;
use crate::formats::uefi_path_text::form::size::Size;
use crate::formats::uefi_path_text::form::words::Words;
use crate::formats::uefi_path_text::form::{NodeForm, PLAIN, Parameter};

/// The forms of nodes of the type BIOS_BOOT_SPEC.
static BIOS_BOOT_SPEC: [NodeForm; 1] = [NodeForm {
    name: "BBS",
    device_type: Known(5),
    sub_type: Known(1),
    arguments: Listed(
        &[
            Parameter {
                argument: Argument::Word(Words::BootDevice, Size::Two),
                default: "0",
            },
            Parameter {
                argument: Argument::Text(65526),
                default: "",
            },
            U16,
        ],
        &[Value(0), Value(2), Value(1), Bytes(&[0])],
    ),
    first_displayed: 0,
    displayed: 2,
    ..PLAIN
}];

/// Returns the forms of nodes of the type BIOS_BOOT_SPEC.
#[inline]
pub(crate) fn forms() -> &'static [NodeForm] {
    &BIOS_BOOT_SPEC
}
