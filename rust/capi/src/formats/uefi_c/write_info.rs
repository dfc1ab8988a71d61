// @generated from proved source. It is not edited.

use core::mem::MaybeUninit;
use crate::bytes::{Buffer, Bytes};

use crate::formats::uefi_c::info::{FILE_NAME_OFFSET, LABEL_OFFSET, UefiFileInfo, UefiFileSystemInfo};
use crate::formats::uefi_c::status::{self, UefiStatus};
use crate::formats::uefi_c::time::bytes_of;
use crate::formats::uefi_c::ucs2::is_ucs2;
use crate::formats::uefi_base::buffer::put;

/// What the sizes of records with a name after fields are multiples of.
const ALIGNMENT: usize = 8;

// The offsets of the fields of a file information record.
const FILE_SIZE_OFFSET: usize = 8;

const PHYSICAL_SIZE_OFFSET: usize = 16;

const CREATE_TIME_OFFSET: usize = 24;

const LAST_ACCESS_TIME_OFFSET: usize = 40;

const MODIFICATION_TIME_OFFSET: usize = 56;

const ATTRIBUTE_OFFSET: usize = 72;

// The offsets of the fields of a file system information record.
const READ_ONLY_OFFSET: usize = 8;

const VOLUME_SIZE_OFFSET: usize = 16;

const FREE_SPACE_OFFSET: usize = 24;

const BLOCK_SIZE_OFFSET: usize = 32;

/// Writes a file information record to the beginning of the buffer, and sets `size` to its size.
///
/// The record states its own size, and not that of `info`. The times may have any fields, and get
/// zeros as padding. The bytes after the name stay as they were, also those that round the size up
/// to a multiple of 8.
///
/// If it returns another status than success, all bytes stay as they were, and `size` is the size
/// that the buffer needs, or 0 if the name isn't UCS-2 text with a NUL.
#[unsafe(no_mangle)]
pub extern "C" fn uefi_write_file_info(
    buffer: Buffer<'_>,
    info: &UefiFileInfo<'_>,
    size: &mut MaybeUninit<usize>,
) -> UefiStatus {
    let buffer = buffer.into_slice();
    let name = info.name.as_slice();
    let Some(length) = record_size(name, FILE_NAME_OFFSET) else {
        size.write(0);
        return status::NOT_TEXT;
    };
    size.write(length);
    if buffer.len() < length {
        return status::BUFFER_TOO_SMALL;
    }
    put_file_info(buffer, info, name, length);
    status::OK
}

/// Writes a file system information record to the beginning of the buffer, and sets `size` to its
/// size.
///
/// The record states its own size, and not that of `info`. The bytes after the label stay as they
/// were, also those that round the size up to a multiple of 8, and so do the unused bytes 9 to 15.
///
/// If it returns another status than success, all bytes stay as they were, and `size` is the size
/// that the buffer needs, or 0 if the label isn't UCS-2 text with a NUL.
#[unsafe(no_mangle)]
pub extern "C" fn uefi_write_file_system_info(
    buffer: Buffer<'_>,
    info: &UefiFileSystemInfo<'_>,
    size: &mut MaybeUninit<usize>,
) -> UefiStatus {
    let buffer = buffer.into_slice();
    let label = info.label.as_slice();
    let Some(length) = record_size(label, LABEL_OFFSET) else {
        size.write(0);
        return status::NOT_TEXT;
    };
    size.write(length);
    if buffer.len() < length {
        return status::BUFFER_TOO_SMALL;
    }
    put_file_system_info(buffer, info, label, length);
    status::OK
}

/// Writes the record of a volume label alone to the beginning of the buffer, and sets `size` to its
/// size: the label, with its NUL. The bytes after it stay as they were.
///
/// If it returns another status than success, all bytes stay as they were, and `size` is the size
/// that the buffer needs, or 0 if the label isn't UCS-2 text with a NUL.
#[unsafe(no_mangle)]
pub extern "C" fn uefi_write_volume_label(
    buffer: Buffer<'_>,
    label: Bytes<'_>,
    size: &mut MaybeUninit<usize>,
) -> UefiStatus {
    let buffer = buffer.into_slice();
    let label = label.as_slice();
    if !is_ucs2(label) {
        size.write(0);
        return status::NOT_TEXT;
    }
    size.write(label.len());
    if buffer.len() < label.len() {
        return status::BUFFER_TOO_SMALL;
    }
    put(buffer, 0, label);
    status::OK
}

/// Returns the size of a record with fields before this name at this offset, or `None` if the name
/// isn't UCS-2 text.
#[inline]
fn record_size(name: &[u8], offset: usize) -> Option<usize> {
    if !is_ucs2(name) {
        return None;
    }
    Some((offset + name.len() + (ALIGNMENT - 1)) / ALIGNMENT * ALIGNMENT)
}

/// Writes a file information record of this size.
#[inline]
fn put_file_info(buffer: &mut [u8], info: &UefiFileInfo<'_>, name: &[u8], size: usize) {
    put(buffer, 0, &(size as u64).to_le_bytes());
    put(buffer, FILE_SIZE_OFFSET, &info.file_size.to_le_bytes());
    put(
        buffer,
        PHYSICAL_SIZE_OFFSET,
        &info.physical_size.to_le_bytes(),
    );
    put(buffer, CREATE_TIME_OFFSET, &bytes_of(&info.create_time));
    put(
        buffer,
        LAST_ACCESS_TIME_OFFSET,
        &bytes_of(&info.last_access_time),
    );
    put(
        buffer,
        MODIFICATION_TIME_OFFSET,
        &bytes_of(&info.modification_time),
    );
    put(buffer, ATTRIBUTE_OFFSET, &info.attribute.to_le_bytes());
    put(buffer, FILE_NAME_OFFSET, name);
}

/// Writes a file system information record of this size.
#[inline]
fn put_file_system_info(buffer: &mut [u8], info: &UefiFileSystemInfo<'_>, label: &[u8], size: usize) {
    put(buffer, 0, &(size as u64).to_le_bytes());
    put(buffer, READ_ONLY_OFFSET, &[info.read_only as u8]);
    put(buffer, VOLUME_SIZE_OFFSET, &info.volume_size.to_le_bytes());
    put(buffer, FREE_SPACE_OFFSET, &info.free_space.to_le_bytes());
    put(buffer, BLOCK_SIZE_OFFSET, &info.block_size.to_le_bytes());
    put(buffer, LABEL_OFFSET, label);
}
