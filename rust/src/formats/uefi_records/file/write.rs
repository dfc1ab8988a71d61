// @generated from proved source. It is not edited.

use crate::formats::uefi_records::file::creation_error::FileInfoCreationError;
use crate::formats::uefi_records::file::name::room_for;
use crate::formats::uefi_records::file::{file_info, file_system_info, file_system_volume_label};
use crate::formats::uefi_records::flags::FileAttribute;
use crate::formats::uefi_records::time::Time;
use crate::formats::uefi_base::CStr16;
use crate::formats::uefi_base::buffer::{put, put_units};

/// Writes a [`FileInfo`](crate::formats::uefi_records::FileInfo) record to the beginning of a buffer, and returns its end:
/// the offset after the name's NUL, which is what
/// [`FileInfo::from_uefi`](crate::formats::uefi_records::FileInfo::from_uefi) takes as `written`.
///
/// The stated size is the record's size, rounded up to a multiple of 8. The rounding bytes, and all
/// that follows, stay as they were. [`FileInfo::new`](crate::formats::uefi_records::FileInfo::new) does the same and
/// returns a view of the record.
///
/// # Errors
///
/// [`FileInfoCreationError::InsufficientStorage`], with the record's size, exactly if the buffer is
/// shorter than that. Every byte then stays as it was.
#[inline]
pub fn write_file_info(
    buffer: &mut [u8],
    file_size: u64,
    physical_size: u64,
    create_time: Time,
    last_access_time: Time,
    modification_time: Time,
    attribute: FileAttribute,
    file_name: &CStr16,
) -> Result<usize, FileInfoCreationError> {
    use file_info::*;
    let name = file_name.as_u16_with_nul();
    let (end, size) = room_for(name.len(), NAME_OFFSET, ALIGNMENT, buffer.len())?;
    put(buffer, SIZE_OFFSET, &(size as u64).to_le_bytes());
    put(buffer, FILE_SIZE_OFFSET, &file_size.to_le_bytes());
    put(buffer, PHYSICAL_SIZE_OFFSET, &physical_size.to_le_bytes());
    put(buffer, CREATE_TIME_OFFSET, &create_time.to_bytes());
    put(
        buffer,
        LAST_ACCESS_TIME_OFFSET,
        &last_access_time.to_bytes(),
    );
    put(
        buffer,
        MODIFICATION_TIME_OFFSET,
        &modification_time.to_bytes(),
    );
    put(buffer, ATTRIBUTE_OFFSET, &attribute.bits().to_le_bytes());
    put_units(buffer, NAME_OFFSET, name);
    Ok(end)
}

/// Writes a [`FileSystemInfo`](crate::formats::uefi_records::FileSystemInfo) record to the beginning of a buffer, and
/// returns its end: the offset after the label's NUL, which is what
/// [`FileSystemInfo::from_uefi`](crate::formats::uefi_records::FileSystemInfo::from_uefi) takes as `written`.
///
/// The stated size is the record's size, rounded up to a multiple of 8. The unused bytes 9 to 15,
/// the rounding bytes, and all that follows, stay as they were.
/// [`FileSystemInfo::new`](crate::formats::uefi_records::FileSystemInfo::new) does the same and returns a view of the
/// record.
///
/// # Errors
///
/// [`FileInfoCreationError::InsufficientStorage`], with the record's size, exactly if the buffer is
/// shorter than that. Every byte then stays as it was.
#[inline]
pub fn write_file_system_info(
    buffer: &mut [u8],
    read_only: bool,
    volume_size: u64,
    free_space: u64,
    block_size: u32,
    volume_label: &CStr16,
) -> Result<usize, FileInfoCreationError> {
    use file_system_info::*;
    let label = volume_label.as_u16_with_nul();
    let (end, size) = room_for(label.len(), LABEL_OFFSET, ALIGNMENT, buffer.len())?;
    put(buffer, SIZE_OFFSET, &(size as u64).to_le_bytes());
    put(buffer, READ_ONLY_OFFSET, &[read_only as u8]);
    put(buffer, VOLUME_SIZE_OFFSET, &volume_size.to_le_bytes());
    put(buffer, FREE_SPACE_OFFSET, &free_space.to_le_bytes());
    put(buffer, BLOCK_SIZE_OFFSET, &block_size.to_le_bytes());
    put_units(buffer, LABEL_OFFSET, label);
    Ok(end)
}

/// Writes a [`FileSystemVolumeLabel`](crate::formats::uefi_records::FileSystemVolumeLabel) record to the beginning of a
/// buffer, and returns its end: the offset after the label's NUL, which is what
/// [`FileSystemVolumeLabel::from_uefi`](crate::formats::uefi_records::FileSystemVolumeLabel::from_uefi) takes as
/// `written`.
///
/// All that follows stays as it was.
/// [`FileSystemVolumeLabel::new`](crate::formats::uefi_records::FileSystemVolumeLabel::new) does the same and returns a
/// view of the record.
///
/// # Errors
///
/// [`FileInfoCreationError::InsufficientStorage`], with the record's size, exactly if the buffer is
/// shorter than that. Every byte then stays as it was.
#[inline]
pub fn write_file_system_volume_label(
    buffer: &mut [u8],
    volume_label: &CStr16,
) -> Result<usize, FileInfoCreationError> {
    use file_system_volume_label::{ALIGNMENT, LABEL_OFFSET};
    let label = volume_label.as_u16_with_nul();
    let (end, _) = room_for(label.len(), LABEL_OFFSET, ALIGNMENT, buffer.len())?;
    put_units(buffer, LABEL_OFFSET, label);
    Ok(end)
}
