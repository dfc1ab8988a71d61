// @generated from proved source. It is not edited.

use crate::support::fallible::*;

use crate::audit_text::parts::{Part, PartValue, content_parts};
use crate::audit_text::text::events::hex_lines::push_bytes;
use crate::shown::ShownName;
use crate::support::alloc::AllocError;
use crate::uefi_audits::content::EventContent;
use uefi_formats::Guid;

/// Appends lines for what data say; the data, if they aren't read.
pub(crate) fn push_content<'a>(
    text: &mut String,
    content: &EventContent<'a>,
    bytes: &'a [u8],
) -> Result<(), AllocError> {
    let mut parts = content_parts(content)?;
    if parts.is_empty() {
        parts.fallible_push(Part::bytes_in_block("  data", bytes))?;
    }
    push_parts(text, &parts)
}

/// Appends the lines of parts: of those that have words, these and the value.
pub(crate) fn push_parts(
    text: &mut String,
    parts: &Vec<Part<'_>>,
) -> Result<(), AllocError> {
    for part in parts {
        if let Some(words) = part.words {
            text.fallible_push_str(words)?;
            push_value(text, &part.value)?;
        }
    }
    Ok(())
}

/// Appends a value.
fn push_value(text: &mut String, value: &PartValue<'_>) -> Result<(), AllocError> {
    match value {
        PartValue::Empty => Ok(()),
        PartValue::Decimal(number) => fallible_write!(text, "{number}"),
        PartValue::Hexadecimal(number) => fallible_write!(text, "0x{number:x}"),
        PartValue::BootNumber(number) => {
            let bytes = [(*number / 256) as u8, (*number % 256) as u8];
            let digits = crate::hex::encode_upper(&bytes)?;
            fallible_write!(text, " Boot{digits}")
        }
        PartValue::Guid(guid) => push_guid(text, guid),
        PartValue::Text(said) => {
            let said = ShownName(said.as_str());
            fallible_write!(text, "{said}")
        }
        PartValue::Plain(said) => text.fallible_push_str(said.as_str()),
        PartValue::Bytes(bytes) => push_bytes(text, bytes),
        PartValue::Object(parts) => push_parts(text, parts),
        PartValue::List(values) => {
            for value in values {
                push_value(text, value)?;
            }
            Ok(())
        }
    }
}

/// Appends a GUID.
fn push_guid(text: &mut String, guid: &Guid) -> Result<(), AllocError> {
    fallible_write!(text, "{guid}")
}
