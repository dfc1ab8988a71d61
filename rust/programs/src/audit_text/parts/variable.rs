// @generated from proved source. It is not edited.

use crate::support::fallible::*;

use crate::audit_text::parts::part::{Part, PartValue, PartsResult, joined};
use crate::audit_text::parts::path::path_parts;
use crate::audit_text::words::printed::printed_text;
use crate::audit_text::words::texts::{description_text, name_text};
use crate::support::alloc::AllocError;
use uefi_formats::proto::tcg::content::{BootOrder, VariableData};
use uefi_formats::proto::device_path::LoadOption;

/// Returns the parts of a variable: its name, its GUID, its data, and those of its value.
pub(crate) fn variable_parts<'a>(
    variable: &VariableData<'a>,
    value: Vec<Part<'a>>,
) -> PartsResult<'a> {
    let name = name_text(&variable.name)?;
    let parts = fallible_vec![Part::new("name", "  variable ", PartValue::Text(name)),
        Part::new("guid", ", ", PartValue::Guid(variable.guid)),
        Part::words("\n"),
        Part::in_json("data", PartValue::Bytes(variable.data)),]?;
    joined(parts, value)
}

/// Returns the parts of a value that isn't read: the bytes, and the text that they are.
pub(crate) fn unread_parts<'a>(bytes: &'a [u8]) -> PartsResult<'a> {
    let text = printed_text(bytes)?;
    Ok(fallible_vec![Part::bytes_in_block("  value", bytes),
        Part::text_in_json("text", text),]?)
}

/// Returns the parts of a boot option: its attributes, its description, its path, and the data for
/// its image.
pub(crate) fn boot_option_parts<'a>(option: &LoadOption<'a>) -> PartsResult<'a> {
    let attributes = PartValue::Hexadecimal(u64::from(option.attributes().bits()));
    let description = PartValue::Text(description_text(option)?);
    let line = fallible_vec![Part::new("attributes", "  boot option with attributes ", attributes),
        Part::new("description", ": ", description),
        Part::words("\n"),]?;
    let path = path_parts(&option.file_path())?;
    let data = optional_data_parts(option.optional_data())?;
    joined(line, joined(path, data)?)
}

/// Returns the data for the image of a boot option, and the text that they are.
fn optional_data_parts<'a>(bytes: &'a [u8]) -> PartsResult<'a> {
    let text = printed_text(bytes)?;
    Ok(fallible_vec![Part::bytes("optional_data", "  optional data", bytes),
        Part::text_in_json("optional_text", text),]?)
}

/// Returns the order of boot options: their numbers.
pub(crate) fn boot_order_value<'a>(
    order: &BootOrder<'_>,
) -> Result<PartValue<'a>, AllocError> {
    let mut numbers = Vec::new();
    for number in order.iter() {
        numbers.fallible_push(PartValue::BootNumber(number))?;
    }
    Ok(PartValue::List(numbers))
}
