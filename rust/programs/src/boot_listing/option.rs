// @generated from proved source. It is not edited.

//! What `option` lists of bytes, and what it refuses.

use crate::support::fallible::*;

use crate::boot_listing::Outcome;
use crate::boot_listing::command::Form;
use crate::boot_listing::json::JsonText;
use crate::boot_listing::refusal::push_refusal;
use crate::shown::{Hex, HexName, HexNumber, gap_before};
use crate::support::alloc::AllocError;
use uefi_formats::UnalignedSlice;
use uefi_formats::proto::device_path::{LoadOption, LoadOptionAttributes, LoadOptionError};
use uefi_formats::proto::device_path::text::{AllowShortcuts, DisplayOnly, to_text};

/// Appends the text of a load option.
///
/// Its lines are `attributes` with `0x` and the bits in hex; `description` with four hex digits for
/// each unit of the description but the NUL that ends it; `path` with the text of the path to the
/// image (UEFI 2.10, 10.6.1); last `data` with the optional data in hex.
///
/// In JSON these are members of an object: `attributes` as a number, and the characters of
/// `description` up to the NUL.
///
/// # Errors
///
/// [`AllocError`] if an allocation fails. The text may have grown then.
pub fn push_load_option(
    text: &mut String,
    form: Form,
    option: &LoadOption<'_>,
) -> Result<(), AllocError> {
    match form {
        Form::Lines => push_load_option_lines(text, option),
        Form::Json => push_load_option_object(text, option),
    }
}

/// Appends the lines of a load option.
fn push_load_option_lines(
    text: &mut String,
    option: &LoadOption<'_>,
) -> Result<(), AllocError> {
    let attributes = HexNumber(u64::from(option.attributes().bits()));
    let description = HexName(option.description());
    let path = to_text(
        option.file_path(),
        DisplayOnly(false),
        AllowShortcuts(false),
    );
    let (gap, data) = (
        gap_before(option.optional_data()),
        Hex(option.optional_data()),
    );
    fallible_writeln!(text,
        "attributes {attributes}\ndescription{description}\npath {path}\ndata{gap}{data}"
    )
}

/// Appends the object of a load option.
fn push_load_option_object(
    text: &mut String,
    option: &LoadOption<'_>,
) -> Result<(), AllocError> {
    text.fallible_push_str("{")?;
    push_load_option_members(text, option)?;
    text.fallible_push_str("}\n")
}

/// Appends the members of an object for a load option.
pub(crate) fn push_load_option_members(
    text: &mut String,
    option: &LoadOption<'_>,
) -> Result<(), AllocError> {
    push_description_members(text, option.attributes(), option.description())?;
    push_image_members(text, option)
}

/// Appends the members for the attributes and for the description.
fn push_description_members(
    text: &mut String,
    attributes: LoadOptionAttributes,
    description: UnalignedSlice<'_>,
) -> Result<(), AllocError> {
    let mut characters = String::new();
    fallible_write!(characters, "{description}")?;
    let description = JsonText(characters.as_str());
    let attributes = attributes.bits();
    fallible_write!(text,
        "\"attributes\":{attributes},\"description\":\"{description}\""
    )
}

/// Appends the members for the path to the image and for the data.
fn push_image_members(
    text: &mut String,
    option: &LoadOption<'_>,
) -> Result<(), AllocError> {
    let path = to_text(
        option.file_path(),
        DisplayOnly(false),
        AllowShortcuts(false),
    );
    let mut characters = String::new();
    fallible_write!(characters, "{path}")?;
    let (path, data) = (JsonText(characters.as_str()), Hex(option.optional_data()));
    fallible_write!(text, ",\"path\":\"{path}\",\"data\":\"{data}\"")
}

/// Appends the listing of the load option that the bytes are.
///
/// # Errors
///
/// [`AllocError`] if an allocation fails. The text may have grown then.
pub fn push_load_option_listing(
    text: &mut String,
    form: Form,
    bytes: &[u8],
) -> Result<Outcome, AllocError> {
    match LoadOption::try_from(bytes) {
        Ok(option) => {
            push_load_option(text, form, &option)?;
            Ok(Outcome::Listed)
        }
        Err(error) => {
            push_refusal(text, form, fault_of(error))?;
            Ok(Outcome::Refused)
        }
    }
}

/// Returns what an error is named by.
pub(crate) fn fault_of(error: LoadOptionError) -> &'static str {
    match error {
        LoadOptionError::TooShort => "refused TooShort",
        LoadOptionError::NotNulTerminated => "refused NotNulTerminated",
        LoadOptionError::FilePathListTooLong => "refused FilePathListTooLong",
        LoadOptionError::FilePath(_) => "refused FilePath",
        _ => unreachable!(),
    }
}
