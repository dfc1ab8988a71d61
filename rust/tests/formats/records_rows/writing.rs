// @generated from proved source. It is not edited.

use crate::support::fallible::*;

use crate::records_rows::reading::units;
use crate::rows::{hex_digits, quoted};
use crate::test_support::bytes;
use crate::uefi_base::{CStr16, CString16};
use crate::uefi_records::{
    FileAttribute, FileInfo, FileInfoCreationError, FileSystemInfo, FileSystemVolumeLabel, Time,
    write_file_info, write_file_system_info, write_file_system_volume_label,
};

/// Returns the name, and the storage, that an input has: a text, a length and a byte.
fn name_and_storage(input: &str) -> Option<(CString16, Vec<u8>)> {
    let parts = input.split(" ; ").fallible_collect::<Vec<&str>>().ok()?;
    let [name, length, byte] = parts.as_slice() else {
        return None;
    };
    let name = CString16::from_str(name).ok()?;
    let byte = bytes(byte).ok()?.first().copied()?;
    let storage = Vec::fallible_from_elem(byte, length.parse::<usize>().ok()?).ok()?;
    Some((name, storage))
}

/// Returns a record of a file with this name, of which all else is zero, over that storage.
fn zero_file<'a>(
    storage: &'a mut [u8],
    name: &CStr16<'_>,
) -> Result<FileInfo<'a>, FileInfoCreationError> {
    let time = Time::invalid();
    let none = FileAttribute::empty();
    FileInfo::new(storage, 0, 0, time, time, time, none, name)
}

/// Returns what was written with the storage after it, or the error if the storage stayed.
fn after(
    storage: &[u8],
    before: &[u8],
    written: Result<String, FileInfoCreationError>,
) -> Option<String> {
    match written {
        Ok(written) => {
            let storage = hex_digits(storage).ok()?;
            fallible_format!("Ok({written}, storage: {storage})").ok()
        }
        Err(error) if storage == before => fallible_format!("Err({error:?})").ok(),
        Err(error) => fallible_format!("Err({error:?}), though the storage changed").ok(),
    }
}

/// Writes a record of a file, and returns its size and its name.
pub(crate) fn write_file(input: &str) -> Option<String> {
    let (name, mut storage) = name_and_storage(input)?;
    let before = Vec::fallible_from_slice(storage.as_slice()).ok()?;
    let written = match zero_file(storage.as_mut_slice(), &name.as_cstr16()) {
        Ok(info) => {
            let (size, name) = (info.size(), units(info.file_name()).ok()?);
            Ok(fallible_format!("size: {size}, name: {name:?}").ok()?)
        }
        Err(error) => Err(error),
    };
    after(storage.as_slice(), before.as_slice(), written)
}

/// Writes a record of a file system, and returns its size and whether it is read-only.
pub(crate) fn write_file_system(input: &str) -> Option<String> {
    let (name, mut storage) = name_and_storage(input)?;
    let before = Vec::fallible_from_slice(storage.as_slice()).ok()?;
    let made = FileSystemInfo::new(storage.as_mut_slice(), true, 1, 2, 3, &name.as_cstr16());
    let written = match made {
        Ok(info) => {
            let (size, read_only) = (info.size(), info.read_only());
            Ok(fallible_format!("size: {size}, read_only: {read_only}").ok()?)
        }
        Err(error) => Err(error),
    };
    after(storage.as_slice(), before.as_slice(), written)
}

/// Writes a label, and returns its units.
pub(crate) fn write_label(input: &str) -> Option<String> {
    let (name, mut storage) = name_and_storage(input)?;
    let before = Vec::fallible_from_slice(storage.as_slice()).ok()?;
    let written = match FileSystemVolumeLabel::new(storage.as_mut_slice(), &name.as_cstr16()) {
        Ok(label) => {
            let label = units(label.volume_label()).ok()?;
            Ok(fallible_format!("label: {label:?}").ok()?)
        }
        Err(error) => Err(error),
    };
    after(storage.as_slice(), before.as_slice(), written)
}

/// Returns the size of the record of a file with a name.
pub(crate) fn file_size(input: &str) -> Option<String> {
    let (name, mut storage) = name_and_storage(input)?;
    let size = match zero_file(storage.as_mut_slice(), &name.as_cstr16()) {
        Ok(info) => Ok(info.size()),
        Err(error) => Err(error),
    };
    fallible_format!("{size:?}").ok()
}

/// Returns the size of the record of a file system with a label.
pub(crate) fn file_system_size(input: &str) -> Option<String> {
    let (name, mut storage) = name_and_storage(input)?;
    let made = FileSystemInfo::new(storage.as_mut_slice(), false, 0, 0, 0, &name.as_cstr16());
    let size = match made {
        Ok(info) => Ok(info.size()),
        Err(error) => Err(error),
    };
    fallible_format!("{size:?}").ok()
}

/// Writes a record of a file, and returns how far that wrote, and whether the record is read.
pub(crate) fn file_end(input: &str) -> Option<String> {
    let (name, mut buffer) = name_and_storage(input)?;
    let (time, none, name) = (Time::invalid(), FileAttribute::empty(), name.as_cstr16());
    let end = write_file_info(buffer.as_mut_slice(), 1, 2, time, time, time, none, &name);
    let is_read = FileInfo::from_uefi(buffer.as_slice(), buffer.len()).is_ok();
    fallible_format!("({end:?}, {is_read})").ok()
}

/// The same of a record of a file system.
pub(crate) fn file_system_end(input: &str) -> Option<String> {
    let (name, mut buffer) = name_and_storage(input)?;
    let end = write_file_system_info(buffer.as_mut_slice(), true, 1, 2, 3, &name.as_cstr16());
    let is_read = FileSystemInfo::from_uefi(buffer.as_slice(), buffer.len()).is_ok();
    fallible_format!("({end:?}, {is_read})").ok()
}

/// The same of a label.
pub(crate) fn label_end(input: &str) -> Option<String> {
    let (name, mut buffer) = name_and_storage(input)?;
    let end = write_file_system_volume_label(buffer.as_mut_slice(), &name.as_cstr16());
    let is_read = FileSystemVolumeLabel::from_uefi(buffer.as_slice(), buffer.len()).is_ok();
    fallible_format!("({end:?}, {is_read})").ok()
}

/// Returns what the error of a label in storage that is too short is displayed as.
pub(crate) fn label_error(input: &str) -> Option<String> {
    let (name, mut storage) = name_and_storage(input)?;
    let made = FileSystemVolumeLabel::new(storage.as_mut_slice(), &name.as_cstr16());
    let Some(error) = made.err() else {
        return fallible_format!("the storage is long enough").ok();
    };
    let text = fallible_format!("{error}").ok()?;
    quoted(text.as_str()).ok()
}
