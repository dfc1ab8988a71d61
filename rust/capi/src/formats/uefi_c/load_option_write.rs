// @generated from proved source. It is not edited.

use core::mem::MaybeUninit;
use crate::bytes::Buffer;

use crate::formats::uefi_c::load_option::UefiLoadOption;
use crate::formats::uefi_c::status::{self, UefiStatus};
use crate::formats::uefi_base::{Status, UnalignedSlice};
use crate::formats::uefi_path::{
    DevicePath, LoadOptionAttributes, LoadOptionDescription, LoadOptionParts, write_load_option,
};

/// The most bytes that a file path list has: its length has to fit two.
const MOST_LIST_BYTES: usize = 0xffff;

/// Writes the load option with these parts to the beginning of the buffer, and sets `size` to its
/// length; the bytes after it stay as they were. `file_path` isn't read: it is the first of the list.
///
/// If it returns another status than success, all bytes stay as they were, and `size` is the length
/// that the buffer needs, or 0 if no option has the parts: the list begins with no path, it has more
/// than 65535 bytes, or the description isn't units of two bytes, of which the last alone is zero.
/// An option whose length is no `usize` is too long, too.
#[unsafe(no_mangle)]
pub extern "C" fn uefi_write_load_option(
    buffer: Buffer<'_>,
    option: &UefiLoadOption<'_>,
    size: &mut MaybeUninit<usize>,
) -> UefiStatus {
    let buffer = buffer.into_slice();
    size.write(0);
    let (description, list) = (option.description.as_slice(), option.file_path_list.as_slice());
    let optional_data = option.optional_data.as_slice();
    let Ok(_) = DevicePath::try_from(list) else {
        return status::NO_FILE_PATH;
    };
    if list.len() > MOST_LIST_BYTES {
        return status::TOO_LONG;
    }
    let Some(units) = UnalignedSlice::try_new(description) else {
        return status::NOT_NUL_TERMINATED;
    };
    let parts = LoadOptionParts {
        attributes: LoadOptionAttributes::from_bits_retain(option.attributes),
        description: LoadOptionDescription::Units(units),
        file_path_list: list,
        optional_data,
    };
    let (status, needed) = write_parts(buffer, &parts);
    size.write(needed);
    status
}

/// Writes the load option with these parts, whose file path list is one. Returns the status, and the
/// length that the buffer needs, or 0.
#[inline]
fn write_parts(buffer: &mut [u8], parts: &LoadOptionParts<'_>) -> (UefiStatus, usize) {
    let error = match write_load_option(buffer, parts) {
        Ok(length) => return (status::OK, length),
        Err(error) => error,
    };
    if error.status() == Status::INVALID_PARAMETER {
        return (status::NOT_NUL_TERMINATED, 0);
    }
    match *error.data() {
        Some(needed) => (status::BUFFER_TOO_SMALL, needed),
        None => (status::TOO_LONG, 0),
    }
}
