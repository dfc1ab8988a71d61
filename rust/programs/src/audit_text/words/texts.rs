// @generated from proved source. It is not edited.

use crate::support::fallible::*;

use crate::shown::{ShownBytes, ShownName};
use crate::support::alloc::AllocError;
use uefi_formats::proto::tcg::content::{CrtmVersion, EventText};
use uefi_formats::UnalignedSlice;
use uefi_formats::proto::device_path::LoadOption;

/// Returns units as text, with U+FFFD for each surrogate.
pub(crate) fn name_text(units: &UnalignedSlice<'_>) -> Result<String, AllocError> {
    let mut text = String::new();
    for unit in units.iter() {
        text.fallible_push(character(unit))?;
    }
    Ok(text)
}

/// Returns the units before the first NUL as text.
pub(crate) fn text_before_nul(
    units: &UnalignedSlice<'_>,
) -> Result<String, AllocError> {
    let mut text = String::new();
    for unit in units.iter() {
        if unit == 0 {
            return Ok(text);
        }
        text.fallible_push(character(unit))?;
    }
    Ok(text)
}

/// Returns the character of a unit: U+FFFD for a surrogate.
pub(crate) fn character(unit: u16) -> char {
    char::from_u32(u32::from(unit)).unwrap_or('\u{fffd}')
}

/// Returns bytes as text: each is the character of its number.
pub(crate) fn byte_text(bytes: &[u8]) -> Result<String, AllocError> {
    let mut text = String::new();
    for byte in bytes {
        text.fallible_push(char::from(*byte))?;
    }
    Ok(text)
}

/// Returns a text on one line, with nothing in it hidden, as [`ShownName`] displays it.
pub(crate) fn shown(text: &str) -> Result<String, AllocError> {
    let shown = ShownName(text);
    fallible_format!("{shown}")
}

/// Returns bytes that are no text as [`ShownBytes`] displays them.
pub(crate) fn shown_bytes(bytes: &[u8]) -> Result<String, AllocError> {
    let shown = ShownBytes(bytes);
    fallible_format!("{shown}")
}

/// Returns the text of units on one line, with nothing in it hidden.
fn shown_units(units: &UnalignedSlice<'_>) -> Result<String, AllocError> {
    let text = name_text(units)?;
    shown(text.as_str())
}

/// Returns the text of an event on one line, with nothing in it hidden.
pub(crate) fn shown_event(text: &EventText<'_>) -> Result<String, AllocError> {
    match text {
        EventText::Utf8 { text, .. } => shown(text),
        EventText::Utf16 { units, .. } => shown_units(units),
        EventText::Other(bytes) => shown_bytes(bytes),
    }
}

/// Returns the text of a version on one line, with nothing in it hidden.
pub(crate) fn shown_version(version: &CrtmVersion<'_>) -> Result<String, AllocError> {
    match version {
        CrtmVersion::Ucs2(units) => shown_units(units),
        CrtmVersion::Guid(guid) => guid.fallible_to_string(),
        CrtmVersion::Other(text) => shown_event(text),
    }
}

/// Returns the description of a boot option, without its NUL.
pub(crate) fn description_text(option: &LoadOption<'_>) -> Result<String, AllocError> {
    text_before_nul(&option.description())
}
