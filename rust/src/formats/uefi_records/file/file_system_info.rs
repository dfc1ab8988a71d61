// @generated from proved source. It is not edited.

use crate::formats::uefi_records::file::creation_error::FileInfoCreationError;
use crate::formats::uefi_records::file::identity::FileSystemInfoIdentity;
use crate::formats::uefi_records::file::name::{name_at, name_end};
use crate::formats::uefi_records::file::protocol_info::FileProtocolInfo;
use crate::formats::uefi_records::file::write::write_file_system_info;
use crate::formats::uefi_base::little_endian::{u32_at, u64_at};
use crate::formats::uefi_base::{Align, CStr16, Error, IdentifiedBy, UnalignedSlice};

// The offsets of the fields, and the record's alignment.
pub(crate) const SIZE_OFFSET: usize = 0;

pub(crate) const READ_ONLY_OFFSET: usize = 8;

pub(crate) const VOLUME_SIZE_OFFSET: usize = 16;

pub(crate) const FREE_SPACE_OFFSET: usize = 24;

pub(crate) const BLOCK_SIZE_OFFSET: usize = 32;

pub(crate) const LABEL_OFFSET: usize = 36;

pub(crate) const ALIGNMENT: usize = 8;

/// A file system information record (UEFI 2.10, 13.5 `EFI_FILE_PROTOCOL.GetInfo()`,
/// `EFI_FILE_SYSTEM_INFO`): the sizes and the label of a volume.
///
/// | offset | bytes | field |
/// |---|---|---|
/// | 0 | 8 | size of the record, little-endian, as all numbers |
/// | 8 | 1 | 0 if the volume can be written, any other number if it is read-only |
/// | 9 | 7 | unused |
/// | 16 | 8 | size of the volume |
/// | 24 | 8 | free bytes of the volume |
/// | 32 | 4 | size of a block |
/// | 36 | 2 a unit | label, with its NUL |
///
/// The size of the record is the length of all this, rounded up to a multiple of 8. A view: it
/// borrows the bytes that it was read from or written to, and what it returns lives as long as they
/// do. Two are equal if the stated sizes, all fields and the units of the labels are; the unused
/// bytes don't count.
#[derive(Clone, Copy)]
pub struct FileSystemInfo<'a> {
    bytes: &'a [u8],
}

impl<'a> FileSystemInfo<'a> {
    /// Reads the record in the first `written` bytes of the buffer, or in the whole buffer if it is
    /// shorter.
    ///
    /// The label ends with the first zero unit there. The size that the record states is not
    /// trusted.
    ///
    /// # Errors
    ///
    /// In this order:
    /// - [`BAD_BUFFER_SIZE`](crate::formats::uefi_base::Status::BAD_BUFFER_SIZE), with no data, if there are fewer
    ///   than 36 such bytes, or no unit from offset 36 on is zero.
    /// - [`BUFFER_TOO_SMALL`](crate::formats::uefi_base::Status::BUFFER_TOO_SMALL), with the size of the record of
    ///   that label, if the whole buffer is shorter.
    #[inline]
    pub fn from_uefi(
        buffer: &'a [u8],
        written: usize,
    ) -> Result<FileSystemInfo<'a>, Error<Option<usize>>> {
        let end = name_end(buffer, written, LABEL_OFFSET, ALIGNMENT)?;
        Ok(FileSystemInfo {
            bytes: &buffer[..end],
        })
    }

    /// Writes a record to the beginning of the storage, and returns a view of it.
    ///
    /// The stated size is the record's size, rounded up to a multiple of 8. The unused bytes 9 to
    /// 15, the rounding bytes, and all that follows, stay as they were.
    ///
    /// # Errors
    ///
    /// [`FileInfoCreationError::InsufficientStorage`], with the record's size, exactly if the
    /// storage is shorter. Every byte then stays as it was.
    #[inline]
    pub fn new(
        storage: &'a mut [u8],
        read_only: bool,
        volume_size: u64,
        free_space: u64,
        block_size: u32,
        volume_label: &CStr16,
    ) -> Result<FileSystemInfo<'a>, FileInfoCreationError> {
        let written = write_file_system_info(
            storage,
            read_only,
            volume_size,
            free_space,
            block_size,
            volume_label,
        );
        FileSystemInfo::over(storage, written)
    }

    /// Returns the size that the record states.
    #[must_use]
    #[inline]
    pub fn size(&self) -> u64 {
        u64_at(self.bytes, SIZE_OFFSET)
    }

    /// Returns whether the volume is read-only.
    #[must_use]
    #[inline]
    pub fn read_only(&self) -> bool {
        self.bytes[READ_ONLY_OFFSET] != 0
    }

    /// Returns the size of the volume, in bytes.
    #[must_use]
    #[inline]
    pub fn volume_size(&self) -> u64 {
        u64_at(self.bytes, VOLUME_SIZE_OFFSET)
    }

    /// Returns the number of free bytes on the volume.
    #[must_use]
    #[inline]
    pub fn free_space(&self) -> u64 {
        u64_at(self.bytes, FREE_SPACE_OFFSET)
    }

    /// Returns the size of a block, in bytes.
    #[must_use]
    #[inline]
    pub fn block_size(&self) -> u32 {
        u32_at(self.bytes, BLOCK_SIZE_OFFSET)
    }

    /// Returns the units of the label: the last is zero, the NUL, and no other is.
    #[must_use]
    #[inline]
    pub fn volume_label(&self) -> UnalignedSlice<'a> {
        name_at(self.bytes, LABEL_OFFSET)
    }

    /// Returns all numbers, in the order of the record, with 1 for a read-only volume and 0 for
    /// others.
    #[inline]
    fn numbers(&self) -> [u64; 5] {
        [
            self.size(),
            u64::from(self.read_only()),
            self.volume_size(),
            self.free_space(),
            u64::from(self.block_size()),
        ]
    }

    /// Returns the view of the record that was written, if it was.
    #[inline]
    fn over(
        bytes: &'a [u8],
        written: Result<usize, FileInfoCreationError>,
    ) -> Result<FileSystemInfo<'a>, FileInfoCreationError> {
        let end = written?;
        Ok(FileSystemInfo {
            bytes: &bytes[..end],
        })
    }
}

impl PartialEq for FileSystemInfo<'_> {
    #[inline]
    fn eq(&self, other: &Self) -> bool {
        self.numbers() == other.numbers() && self.volume_label() == other.volume_label()
    }
}

impl Eq for FileSystemInfo<'_> {}

impl Align for FileSystemInfo<'_> {
    #[inline]
    fn alignment() -> usize {
        ALIGNMENT
    }
}

impl IdentifiedBy for FileSystemInfo<'_> {
    type Identity = FileSystemInfoIdentity;
}

impl FileProtocolInfo for FileSystemInfo<'_> {}
