// @generated from proved source. It is not edited.

use core::mem::MaybeUninit;
use crate::bytes::Bytes;

use crate::formats::uefi_c::info::name_bytes;
use crate::formats::uefi_c::status::{self, UefiStatus};
use crate::formats::uefi_path::{DevicePath, LoadOption, LoadOptionError};

/// The offset of the description.
const DESCRIPTION_OFFSET: usize = 6;

/// A load option.
#[derive(Clone, Copy, Debug)]
#[repr(C)]
pub struct UefiLoadOption<'a> {
    /// The bytes of the description: units of two bytes, little-endian, of which the last alone is
    /// zero.
    pub description: Bytes<'a>,
    /// The bytes of the device path that leads to the image.
    pub file_path: Bytes<'a>,
    /// The bytes of the file path list, which start with those of that path.
    pub file_path_list: Bytes<'a>,
    /// The data that the image is given.
    pub optional_data: Bytes<'a>,
    /// The attributes.
    pub attributes: u32,
}

/// Reads the load option that the bytes are.
///
/// If they are none, it returns why: there are fewer than six, no unit of the description is zero,
/// fewer bytes follow than the file path list is stated to have, or the list begins with no device
/// path.
#[unsafe(no_mangle)]
pub extern "C" fn uefi_load_option<'a>(bytes: Bytes<'a>, out: &mut MaybeUninit<UefiLoadOption<'a>>) -> UefiStatus {
    let bytes = bytes.as_slice();
    match LoadOption::try_from(bytes) {
        Ok(option) => {
            out.write(seen(bytes, &option));
            status::OK
        }
        Err(error) => status_of(&error),
    }
}

/// Finds the path at the offset of a file path list, and moves the offset to its end. Without one it
/// returns why: the list ends there, or no path begins there.
#[unsafe(no_mangle)]
pub extern "C" fn uefi_load_option_next_path<'a>(
    file_path_list: Bytes<'a>,
    offset: &mut usize,
    path: &mut MaybeUninit<Bytes<'a>>,
) -> UefiStatus {
    let file_path_list = file_path_list.as_slice();
    if *offset >= file_path_list.len() {
        return status::END;
    }
    let (_, rest) = file_path_list.split_at(*offset);
    let Ok(found) = DevicePath::try_from(rest) else {
        return status::NO_PATH;
    };
    path.write(Bytes::new(found.as_bytes()));
    *offset += found.as_bytes().len();
    status::OK
}

/// Returns the parts of the load option that the bytes are.
#[inline]
fn seen<'a>(bytes: &'a [u8], option: &LoadOption<'a>) -> UefiLoadOption<'a> {
    let units = option.description().len();
    UefiLoadOption {
        description: Bytes::new(name_bytes(bytes, DESCRIPTION_OFFSET, units)),
        file_path: Bytes::new(option.file_path().as_bytes()),
        file_path_list: Bytes::new(option.file_path_list()),
        optional_data: Bytes::new(option.optional_data()),
        attributes: option.attributes().bits(),
    }
}

/// Returns the status of an error.
#[inline]
fn status_of(error: &LoadOptionError) -> UefiStatus {
    match error {
        LoadOptionError::TooShort => status::TOO_SHORT,
        LoadOptionError::NotNulTerminated => status::NOT_NUL_TERMINATED,
        LoadOptionError::FilePathListTooLong => status::FILE_PATH_LIST_TOO_LONG,
        LoadOptionError::FilePath(_) => status::NO_FILE_PATH,
    }
}
