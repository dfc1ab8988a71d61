// @generated from proved source. It is not edited.

use crate::support::fallible::*;

use crate::rows::{hex_digits, quoted};
use crate::test_support::{Refusing, bytes};
use crate::uefi_path::{LoadOption, LoadOptionError};

/// Returns what is read of an option: the attributes, the number of units of the description, the
/// numbers of bytes of the first path, of the file path list and of the optional data.
pub(crate) fn option(input: &[u8]) -> Result<(u32, [usize; 4]), LoadOptionError> {
    let option = LoadOption::try_from(input)?;
    let sizes = [
        option.description().len(),
        option.file_path().as_bytes().len(),
        option.file_path_list().len(),
        option.optional_data().len(),
    ];
    Ok((option.attributes().bits(), sizes))
}

/// Returns the first path, the file path list and the optional data of an option.
pub(crate) fn option_parts(input: &str) -> Option<String> {
    let input = bytes(input).ok()?;
    let option = LoadOption::try_from(input.as_slice()).ok()?;
    let path = hex_digits(option.file_path().as_bytes()).ok()?;
    let list = hex_digits(option.file_path_list()).ok()?;
    let optional_data = hex_digits(option.optional_data()).ok()?;
    fallible_format!("({path}, {list}, {optional_data})").ok()
}

/// Returns the description of an option.
pub(crate) fn option_description(
    input: &str,
) -> Option<String> {
    let input = bytes(input).ok()?;
    let option = LoadOption::try_from(input.as_slice()).ok()?;
    let text = option.description().to_cstring16().ok()?;
    let characters = text.as_cstr16().to_string().text().ok()?;
    quoted(characters.as_str()).ok()
}

/// Returns what the error of bytes that are no option is displayed as.
pub(crate) fn option_error(input: &str) -> Option<String> {
    let input = bytes(input).ok()?;
    let error = LoadOption::try_from(input.as_slice()).err()?;
    let text = fallible_format!("{error}").ok()?;
    quoted(text.as_str()).ok()
}
