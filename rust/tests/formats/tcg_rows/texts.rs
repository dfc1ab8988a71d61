// @generated from proved source. It is not edited.

use crate::support::fallible::*;

use crate::rows::hex_digits;
use crate::tcg_event::{CrtmVersion, EventText};
use crate::test_support::bytes;
use crate::uefi_base::UnalignedSlice;

/// Returns the units over bytes.
pub(crate) fn units(slice: UnalignedSlice<'_>) -> Option<Vec<u16>> {
    slice.iter().fallible_collect::<Vec<u16>>().ok()
}

/// Returns the form of a text: its characters, and whether a NUL ends it, or bytes that are no text.
fn shown(text: &EventText<'_>) -> Option<String> {
    match text {
        EventText::Utf8 { text, has_nul } => {
            let text = hex_digits(text.as_bytes()).ok()?;
            fallible_format!("Utf8({text}, {has_nul})").ok()
        }
        EventText::Utf16 {
            units: text,
            has_nul,
        } => {
            let text = units(*text)?;
            fallible_format!("Utf16({:?}, {has_nul})", text.as_slice()).ok()
        }
        EventText::Other(bytes) => {
            let bytes = hex_digits(bytes).ok()?;
            fallible_format!("Other({bytes})").ok()
        }
    }
}

/// Returns the text that the bytes are, or the bytes.
pub(crate) fn event_text(input: &str) -> Option<String> {
    let input = bytes(input).ok()?;
    shown(&EventText::read(input.as_slice()))
}

/// Returns the version that the bytes are, or what else they say.
pub(crate) fn crtm_version(input: &str) -> Option<String> {
    let input = bytes(input).ok()?;
    match CrtmVersion::read(input.as_slice()) {
        CrtmVersion::Ucs2(text) => {
            let text = units(text)?;
            fallible_format!("Ucs2({:?})", text.as_slice()).ok()
        }
        CrtmVersion::Guid(guid) => fallible_format!("Guid({guid})").ok(),
        CrtmVersion::Other(text) => {
            let text = shown(&text)?;
            fallible_format!("Other({text})").ok()
        }
    }
}
