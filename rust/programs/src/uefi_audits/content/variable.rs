// @generated from proved source. It is not edited.

use crate::uefi_audits::content::EventContent;
use uefi_formats::proto::tcg::content::{BootOrder, SignatureData, SignatureLists, VariableData};
use uefi_formats::{Guid, UnalignedSlice};
use uefi_formats::proto::device_path::LoadOption;

/// The GUID of UEFI's own variables (UEFI 2.10, 3.3, `EFI_GLOBAL_VARIABLE`).
const GLOBAL_VARIABLE: Guid = Guid([
    0x61, 0xdf, 0xe4, 0x8b, 0xca, 0x93, 0xd2, 0x11, 0xaa, 0x0d, 0x00, 0xe0, 0x98, 0x03, 0x2b, 0x8c,
]);

/// The GUID of the databases `db` and `dbx` (UEFI 2.10, 32.6.1,
/// `EFI_IMAGE_SECURITY_DATABASE_GUID`).
const IMAGE_SECURITY_DATABASE: Guid = Guid([
    0xcb, 0xb2, 0x19, 0xd7, 0x3a, 0x3d, 0x96, 0x45, 0xa3, 0xbc, 0xda, 0xd0, 0x0e, 0x67, 0x65, 0x6f,
]);

/// The GUID of the variables of the boot loader shim.
const SHIM_LOCK: Guid = Guid([
    0x50, 0xab, 0x5d, 0x60, 0x46, 0xe0, 0x00, 0x43, 0xab, 0xb6, 0x3d, 0xd8, 0x10, 0xdd, 0x8b, 0x23,
]);

/// Returns the variable that data are, with what its value says.
pub(crate) fn variable_content(bytes: &[u8]) -> EventContent<'_> {
    match VariableData::read(bytes) {
        Some(variable) => with_value(&variable),
        None => EventContent::Unread,
    }
}

/// Returns the variable that data are, with the signature that its value is.
pub(crate) fn authority_content(bytes: &[u8]) -> EventContent<'_> {
    match VariableData::read(bytes) {
        Some(variable) => with_authority(&variable),
        None => EventContent::Unread,
    }
}

/// Returns a variable with what its value says, by its GUID and its name.
fn with_value<'a>(variable: &VariableData<'a>) -> EventContent<'a> {
    let name = &variable.name;
    if variable.guid == GLOBAL_VARIABLE {
        return with_global_value(variable);
    }
    if variable.guid == IMAGE_SECURITY_DATABASE
        && (is_named(name, b"d\0b\0") || is_named(name, b"d\0b\0x\0"))
    {
        return with_signature_lists(variable);
    }
    EventContent::Variable(*variable)
}

/// Returns one of UEFI's own variables with what its value says, by its name.
fn with_global_value<'a>(variable: &VariableData<'a>) -> EventContent<'a> {
    let name = &variable.name;
    if is_boot_option_name(name) {
        return with_boot_option(variable);
    }
    if is_named(name, b"B\0o\0o\0t\0O\0r\0d\0e\0r\0") {
        return with_boot_order(variable);
    }
    if is_named(name, b"P\0K\0") || is_named(name, b"K\0E\0K\0") {
        return with_signature_lists(variable);
    }
    EventContent::Variable(*variable)
}

/// Returns a variable in an event of type `EV_EFI_VARIABLE_AUTHORITY` with what its value says.
fn with_authority<'a>(variable: &VariableData<'a>) -> EventContent<'a> {
    if variable.guid == IMAGE_SECURITY_DATABASE
        || (variable.guid == SHIM_LOCK && is_named(&variable.name, b"M\0o\0k\0L\0i\0s\0t\0"))
    {
        return with_signature(variable);
    }
    EventContent::Variable(*variable)
}

/// Returns a variable with the boot option that its value is.
fn with_boot_option<'a>(variable: &VariableData<'a>) -> EventContent<'a> {
    match load_option(variable.data) {
        Some(option) => EventContent::BootOption(*variable, option),
        None => EventContent::Variable(*variable),
    }
}

/// Returns the load option that the bytes are.
fn load_option(bytes: &[u8]) -> Option<LoadOption<'_>> {
    let Ok(option) = LoadOption::try_from(bytes) else {
        return None;
    };
    Some(option)
}

/// Returns a variable with the order of boot options that its value is.
fn with_boot_order<'a>(variable: &VariableData<'a>) -> EventContent<'a> {
    match BootOrder::read(variable.data) {
        Some(order) => EventContent::BootOrder(*variable, order),
        None => EventContent::Variable(*variable),
    }
}

/// Returns a variable with the lists of a signature database that its value is.
fn with_signature_lists<'a>(variable: &VariableData<'a>) -> EventContent<'a> {
    match SignatureLists::read(variable.data) {
        Some(lists) => EventContent::SignatureLists(*variable, lists),
        None => EventContent::Variable(*variable),
    }
}

/// Returns a variable with the signature that its value is.
fn with_signature<'a>(variable: &VariableData<'a>) -> EventContent<'a> {
    match SignatureData::read(variable.data) {
        Some(signature) => EventContent::Signature(*variable, signature),
        None => EventContent::Variable(*variable),
    }
}

/// Returns whether a name has the units in these bytes.
fn is_named(name: &UnalignedSlice<'_>, units: &[u8]) -> bool {
    *name == UnalignedSlice::new(units)
}

/// Returns whether a name is `Boot` and four upper-case hex digits.
fn is_boot_option_name(name: &UnalignedSlice<'_>) -> bool {
    name.len() == 8
        && has_unit(name, 0, 0x42)
        && has_unit(name, 1, 0x6f)
        && has_unit(name, 2, 0x6f)
        && has_unit(name, 3, 0x74)
        && has_digit(name, 4)
        && has_digit(name, 5)
        && has_digit(name, 6)
        && has_digit(name, 7)
}

/// Returns whether a name has a unit at an index.
fn has_unit(name: &UnalignedSlice<'_>, index: usize, unit: u16) -> bool {
    name.get(index) == Some(unit)
}

/// Returns whether a name has an upper-case hex digit at an index.
fn has_digit(name: &UnalignedSlice<'_>, index: usize) -> bool {
    matches!(name.get(index), Some(0x30..=0x39 | 0x41..=0x46))
}
