// @generated from proved source. It is not edited.

use crate::formats::uefi_path::load_option::{DESCRIPTION_OFFSET, LIST_LENGTH_OFFSET};
use crate::formats::uefi_path::load_option_parts::LoadOptionParts;
use crate::formats::uefi_base::buffer::put;
use crate::formats::uefi_base::{Error, Status};

/// Writes the load option with these parts to the beginning of a buffer, and returns its length in
/// bytes. The bytes that follow stay as they were.
///
/// [`LoadOption::new_in_buffer`](crate::formats::uefi_path::LoadOption::new_in_buffer) does the same and returns a view
/// of the option.
///
/// # Errors
///
/// In each case all bytes of the buffer stay as they were.
///
/// - [`INVALID_PARAMETER`](Status::INVALID_PARAMETER) with `None` if no load option has these
///   parts, whatever the buffer.
/// - Else [`BUFFER_TOO_SMALL`](Status::BUFFER_TOO_SMALL) with the length of the option if the
///   buffer is shorter than that; with `None` if that length is no `usize`.
#[inline]
pub fn write_load_option(
    buffer: &mut [u8],
    parts: &LoadOptionParts<'_>,
) -> Result<usize, Error<Option<usize>>> {
    if !parts.are_of_option() {
        return Err(Error::new(Status::INVALID_PARAMETER, None));
    }
    let Some(size) = parts.size() else {
        return Err(Error::new(Status::BUFFER_TOO_SMALL, None));
    };
    if buffer.len() < size {
        return Err(Error::new(Status::BUFFER_TOO_SMALL, Some(size)));
    }
    put_load_option(buffer, parts);
    Ok(size)
}

/// Puts the option with these parts at the beginning of a buffer that has room for it.
#[inline]
pub(crate) fn put_load_option(buffer: &mut [u8], parts: &LoadOptionParts<'_>) {
    let list = parts.file_path_list;
    let list_offset = DESCRIPTION_OFFSET + 2 * parts.description.len();
    put(buffer, 0, &parts.attributes.bits().to_le_bytes());
    put(
        buffer,
        LIST_LENGTH_OFFSET,
        &(list.len() as u16).to_le_bytes(),
    );
    parts.description.put(buffer, DESCRIPTION_OFFSET);
    put(buffer, list_offset, list);
    put(buffer, list_offset + list.len(), parts.optional_data);
}
