// @generated from proved source. It is not edited.

use crate::support::fallible::*;

use crate::rows::hex_digits;
use crate::support::alloc::AllocError;
use crate::test_support::bytes;
use crate::test_support::samples::{FILE, FILE_SYSTEM, ZERO_FILE};
use crate::uefi_base::{Error, Identify, UnalignedSlice};
use crate::uefi_records::{FileInfo, FileSystemInfo, FileSystemVolumeLabel};

/// Returns the digits of the sample that has a name, or of any other text the text.
fn sample<'a>(name: &'a str) -> &'a str {
    match name {
        "FILE" => FILE,
        "ZERO_FILE" => ZERO_FILE,
        "FILE_SYSTEM" => FILE_SYSTEM,
        digits => digits,
    }
}

/// Returns how many bytes were written, and the buffer, which has this many bytes of a sample.
fn written_and_buffer(input: &str) -> Option<(usize, Vec<u8>)> {
    let parts = input.split(" ; ").fallible_collect::<Vec<&str>>().ok()?;
    let [written, length, name] = parts.as_slice() else {
        return None;
    };
    let mut buffer = bytes(sample(name)).ok()?;
    buffer.truncate(length.parse::<usize>().ok()?);
    // The greatest number has more bits than some processors' lengths.
    let written = written.parse::<u64>().ok()?;
    Some((usize::try_from(written).unwrap_or(usize::MAX), buffer))
}

/// Returns the units of a name.
pub(crate) fn units(name: UnalignedSlice<'_>) -> Result<Vec<u16>, AllocError> {
    name.iter().fallible_collect::<Vec<u16>>()
}

/// Returns why bytes are no record.
fn refusal(error: Error<Option<usize>>) -> Option<String> {
    let (status, data) = (error.status(), error.data());
    fallible_format!("Err({status}, {data:?})").ok()
}

/// Returns the times of creation, of the last access and of the last modification.
fn times(info: &FileInfo<'_>) -> Option<String> {
    let mut times = Vec::fallible_from_slice(&info.create_time().to_bytes()).ok()?;
    let accessed = info.last_access_time().to_bytes();
    times.fallible_extend_from_slice(&accessed).ok()?;
    let modified = info.modification_time().to_bytes();
    times.fallible_extend_from_slice(&modified).ok()?;
    hex_digits(times.as_slice()).ok()
}

/// Returns the file information record in a buffer.
pub(crate) fn file(input: &str) -> Option<String> {
    let (written, buffer) = written_and_buffer(input)?;
    let info = match FileInfo::from_uefi(buffer.as_slice(), written) {
        Ok(info) => info,
        Err(error) => return refusal(error),
    };
    let sizes = (info.size(), info.file_size(), info.physical_size());
    let times = times(&info)?;
    let attribute = info.attribute();
    let kinds = [info.is_directory(), info.is_regular_file()];
    let name = units(info.file_name()).ok()?;
    fallible_format!("File {{ sizes: {sizes:?}, times: {times}, attribute: {attribute:?}, \
         is_directory, is_regular_file: {kinds:?}, name: {name:?} }}"
    )
    .ok()
}

/// Returns the file system information record in a buffer.
pub(crate) fn file_system(input: &str) -> Option<String> {
    let (written, buffer) = written_and_buffer(input)?;
    let info = match FileSystemInfo::from_uefi(buffer.as_slice(), written) {
        Ok(info) => info,
        Err(error) => return refusal(error),
    };
    let (size, read_only) = (info.size(), info.read_only());
    let numbers = (info.volume_size(), info.free_space(), info.block_size());
    let label = units(info.volume_label()).ok()?;
    fallible_format!("FileSystem {{ size: {size}, read_only: {read_only}, \
         volume_size, free_space, block_size: {numbers:?}, label: {label:?} }}"
    )
    .ok()
}

/// Returns the units of the label in a buffer.
pub(crate) fn label(input: &str) -> Option<String> {
    let (written, buffer) = written_and_buffer(input)?;
    match FileSystemVolumeLabel::from_uefi(buffer.as_slice(), written) {
        Ok(label) => {
            let label = units(label.volume_label()).ok()?;
            fallible_format!("Ok({label:?})").ok()
        }
        Err(error) => refusal(error),
    }
}

/// Returns the bytes of a sample, and the same with another byte, of which the input has the offset
/// and the byte.
fn both(sample: &str, input: &str) -> Option<(Vec<u8>, Vec<u8>)> {
    let (offset, byte) = input.split_once(" ; ")?;
    let byte = bytes(byte).ok()?.first().copied()?;
    let mut changed = bytes(sample).ok()?;
    *changed.get_mut(offset.parse::<usize>().ok()?)? = byte;
    Some((bytes(sample).ok()?, changed))
}

/// Returns whether the file of [`FILE`] is equal to itself with another byte.
pub(crate) fn equal_files(input: &str) -> Option<String> {
    let (one, other) = both(FILE, input)?;
    let one = FileInfo::from_uefi(one.as_slice(), 86).ok()?;
    let other = FileInfo::from_uefi(other.as_slice(), 86).ok()?;
    let are_equal = one == other;
    fallible_format!("{are_equal}").ok()
}

/// Returns whether the file system of [`FILE_SYSTEM`] is equal to itself with another byte.
pub(crate) fn equal_file_systems(input: &str) -> Option<String> {
    let (one, other) = both(FILE_SYSTEM, input)?;
    let one = FileSystemInfo::from_uefi(one.as_slice(), 42).ok()?;
    let other = FileSystemInfo::from_uefi(other.as_slice(), 42).ok()?;
    let are_equal = one == other;
    fallible_format!("{are_equal}").ok()
}

/// Returns whether the labels in both buffers are equal.
pub(crate) fn equal_labels(one: &[u8], other: &[u8]) -> Option<bool> {
    let one = FileSystemVolumeLabel::from_uefi(one, 8).ok()?;
    let other = FileSystemVolumeLabel::from_uefi(other, 8).ok()?;
    Some(one == other)
}

/// Returns the GUID of a kind of records, if it is also their identity.
pub(crate) fn guid(input: &str) -> Option<String> {
    let (guid, same) = match input {
        "FileInfo" => (FileInfo::GUID, FileInfo::identity()),
        "FileSystemInfo" => (FileSystemInfo::GUID, FileSystemInfo::identity()),
        _ => (
            FileSystemVolumeLabel::GUID,
            FileSystemVolumeLabel::identity(),
        ),
    };
    if guid != same {
        return fallible_format!("the identity is {same}").ok();
    }
    fallible_format!("\"{guid}\"").ok()
}
