// @generated from proved source. It is not edited.

use crate::support::fallible::*;

use crate::audit_text::parts::part::PartValue;
use crate::audit_text::words::names::algorithm_name;
use crate::audit_text::words::texts::{name_text, shown_bytes};
use crate::support::alloc::AllocError;
use uefi_formats::proto::tcg::content::{CrtmVersion, EventText};
use uefi_formats::proto::tcg::AlgorithmId;

/// Returns the text of an event; bytes that are no text as they are shown.
pub(crate) fn event_value<'a>(
    text: &EventText<'_>,
) -> Result<PartValue<'a>, AllocError> {
    match text {
        EventText::Utf8 { text, .. } => Ok(PartValue::Text(String::fallible_from_str(text)?)),
        EventText::Utf16 { units, .. } => Ok(PartValue::Text(name_text(units)?)),
        EventText::Other(bytes) => Ok(PartValue::Plain(shown_bytes(bytes)?)),
    }
}

/// Returns a version: its text, or its GUID.
pub(crate) fn version_value<'a>(
    version: &CrtmVersion<'_>,
) -> Result<PartValue<'a>, AllocError> {
    match version {
        CrtmVersion::Ucs2(units) => Ok(PartValue::Text(name_text(units)?)),
        CrtmVersion::Guid(guid) => Ok(PartValue::Guid(*guid)),
        CrtmVersion::Other(text) => event_value(text),
    }
}

/// Returns the name of an algorithm; the number of one without a name.
pub(crate) fn algorithm_value<'a>(
    algorithm: AlgorithmId,
) -> Result<PartValue<'a>, AllocError> {
    match algorithm_name(algorithm) {
        Some(name) => Ok(PartValue::Plain(String::fallible_from_str(name)?)),
        None => Ok(PartValue::Hexadecimal(u64::from(algorithm.0))),
    }
}
