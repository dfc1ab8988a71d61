// @generated from proved source. It is not edited.

use core::mem::MaybeUninit;
use crate::bytes::Bytes;

use crate::formats::uefi_c::status::{self, UefiStatus};
use crate::formats::uefi_c::time::{UefiTime, seen};
use crate::formats::uefi_base::Error;
use crate::formats::uefi_records::{FileInfo, FileSystemInfo, FileSystemVolumeLabel};

/// The offset of the name in a file information record.
pub(crate) const FILE_NAME_OFFSET: usize = 80;

/// The offset of the label in a file system information record.
pub(crate) const LABEL_OFFSET: usize = 36;

/// A file information record.
#[derive(Clone, Copy, Debug)]
#[repr(C)]
pub struct UefiFileInfo<'a> {
    /// The bytes of the name: units of two bytes, little-endian, of which the last alone is zero.
    pub name: Bytes<'a>,
    /// The size that the record states.
    pub size: u64,
    /// The size of the file, in bytes.
    pub file_size: u64,
    /// The size that the file occupies on its volume, in bytes.
    pub physical_size: u64,
    /// The file's attributes.
    pub attribute: u64,
    /// When the file was created, whether or not the time is valid.
    pub create_time: UefiTime,
    /// When the file was last accessed.
    pub last_access_time: UefiTime,
    /// When the file was last modified.
    pub modification_time: UefiTime,
}

/// A file system information record.
#[derive(Clone, Copy, Debug)]
#[repr(C)]
pub struct UefiFileSystemInfo<'a> {
    /// The bytes of the label: units of two bytes, little-endian, of which the last alone is zero.
    pub label: Bytes<'a>,
    /// The size that the record states.
    pub size: u64,
    /// The size of the volume, in bytes.
    pub volume_size: u64,
    /// The free space on the volume, in bytes.
    pub free_space: u64,
    /// The size of the volume's blocks, in bytes.
    pub block_size: u32,
    /// Whether the volume can only be read.
    pub read_only: bool,
}

/// Reads the file information record in the first `written` bytes of the buffer.
///
/// If it isn't there, `needed` is the size of the record if the buffer is too small for it, and 0 if
/// the written bytes have no name.
#[unsafe(no_mangle)]
pub extern "C" fn uefi_file_info<'a>(
    buffer: Bytes<'a>,
    written: usize,
    out: &mut MaybeUninit<UefiFileInfo<'a>>,
    needed: &mut MaybeUninit<usize>,
) -> UefiStatus {
    let buffer = buffer.as_slice();
    match FileInfo::from_uefi(buffer, written) {
        Ok(info) => {
            out.write(UefiFileInfo {
                name: Bytes::new(name_bytes(buffer, FILE_NAME_OFFSET, info.file_name().len())),
                size: info.size(),
                file_size: info.file_size(),
                physical_size: info.physical_size(),
                attribute: info.attribute().bits(),
                create_time: seen(&info.create_time()),
                last_access_time: seen(&info.last_access_time()),
                modification_time: seen(&info.modification_time()),
            });
            status::OK
        }
        Err(error) => {
            needed.write(error.data().unwrap_or(0));
            status_of(&error)
        }
    }
}

/// Reads the file system information record in the first `written` bytes of the buffer.
///
/// If it isn't there, `needed` is the size of the record if the buffer is too small for it, and 0 if
/// the written bytes have no label.
#[unsafe(no_mangle)]
pub extern "C" fn uefi_file_system_info<'a>(
    buffer: Bytes<'a>,
    written: usize,
    out: &mut MaybeUninit<UefiFileSystemInfo<'a>>,
    needed: &mut MaybeUninit<usize>,
) -> UefiStatus {
    let buffer = buffer.as_slice();
    match FileSystemInfo::from_uefi(buffer, written) {
        Ok(info) => {
            out.write(UefiFileSystemInfo {
                label: Bytes::new(name_bytes(buffer, LABEL_OFFSET, info.volume_label().len())),
                size: info.size(),
                volume_size: info.volume_size(),
                free_space: info.free_space(),
                block_size: info.block_size(),
                read_only: info.read_only(),
            });
            status::OK
        }
        Err(error) => {
            needed.write(error.data().unwrap_or(0));
            status_of(&error)
        }
    }
}

/// Reads the record of a volume label alone in the first `written` bytes of the buffer: the bytes
/// of the label, units of two bytes, little-endian, of which the last alone is zero.
#[unsafe(no_mangle)]
pub extern "C" fn uefi_volume_label<'a>(
    buffer: Bytes<'a>,
    written: usize,
    label: &mut MaybeUninit<Bytes<'a>>,
    needed: &mut MaybeUninit<usize>,
) -> UefiStatus {
    let buffer = buffer.as_slice();
    match FileSystemVolumeLabel::from_uefi(buffer, written) {
        Ok(record) => {
            label.write(Bytes::new(name_bytes(buffer, 0, record.volume_label().len())));
            status::OK
        }
        Err(error) => {
            needed.write(error.data().unwrap_or(0));
            status_of(&error)
        }
    }
}

/// Returns the status of an error.
#[inline]
fn status_of(error: &Error<Option<usize>>) -> UefiStatus {
    match error.data() {
        Some(_size) => status::BUFFER_TOO_SMALL,
        None => status::NOT_NUL_TERMINATED,
    }
}

/// Returns the bytes of this many units from the offset on.
#[inline]
pub(crate) fn name_bytes(buffer: &[u8], offset: usize, units: usize) -> &[u8] {
    let (_, rest) = buffer.split_at(offset);
    let (name, _) = rest.split_at(2 * units);
    name
}
