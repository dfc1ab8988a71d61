// @generated from proved source. It is not edited.

use crate::formats::uefi_records::file::creation_error::FileInfoCreationError;
use crate::formats::uefi_records::file::identity::FileInfoIdentity;
use crate::formats::uefi_records::file::name::{name_at, name_end};
use crate::formats::uefi_records::file::protocol_info::FileProtocolInfo;
use crate::formats::uefi_records::file::write::write_file_info;
use crate::formats::uefi_records::flags::FileAttribute;
use crate::formats::uefi_records::time::Time;
use crate::formats::uefi_base::little_endian::u64_at;
use crate::formats::uefi_base::{Align, CStr16, Error, IdentifiedBy, UnalignedSlice};

// The offsets of the fields, and the record's alignment.
pub(crate) const SIZE_OFFSET: usize = 0;

pub(crate) const FILE_SIZE_OFFSET: usize = 8;

pub(crate) const PHYSICAL_SIZE_OFFSET: usize = 16;

pub(crate) const CREATE_TIME_OFFSET: usize = 24;

pub(crate) const LAST_ACCESS_TIME_OFFSET: usize = 40;

pub(crate) const MODIFICATION_TIME_OFFSET: usize = 56;

pub(crate) const ATTRIBUTE_OFFSET: usize = 72;

pub(crate) const NAME_OFFSET: usize = 80;

pub(crate) const ALIGNMENT: usize = 8;

/// A file information record (UEFI 2.10, 13.5 `EFI_FILE_PROTOCOL.GetInfo()`, `EFI_FILE_INFO`): the
/// sizes, times, attributes and the name of a file.
///
/// | offset | bytes | field |
/// |---|---|---|
/// | 0 | 8 | size of the record, little-endian, as all numbers |
/// | 8 | 8 | size of the file |
/// | 16 | 8 | size that the file occupies on its volume |
/// | 24 | 16 | [`Time`] of creation |
/// | 40 | 16 | [`Time`] of the last access |
/// | 56 | 16 | [`Time`] of the last modification |
/// | 72 | 8 | [`FileAttribute`] |
/// | 80 | 2 a unit | name, with its NUL |
///
/// The size of the record is the length of all this, rounded up to a multiple of 8. A view: it
/// borrows the bytes that it was read from or written to, and what it returns lives as long as they
/// do. Two are equal if the stated sizes, all fields and the units of the names are.
///
/// # Examples
///
/// Firmware wrote a record to a buffer. Is the file a directory?
///
/// ```
/// use uefi_formats::proto::media::file::FileInfo;
///
/// fn is_directory_in(buffer: &[u8], written: usize) -> Option<bool> {
///     let info = FileInfo::from_uefi(buffer, written).ok()?;
///     Some(info.is_directory())
/// }
///
/// let mut record = [0; 82];
/// record[72] = 0x10;
/// assert_eq!(is_directory_in(&record, 82), None, "a record of 82 bytes ends at 88");
/// let mut record = [0; 88];
/// record[72] = 0x10;
/// assert_eq!(is_directory_in(&record, 82), Some(true));
/// ```
#[derive(Clone, Copy)]
pub struct FileInfo<'a> {
    bytes: &'a [u8],
}

impl<'a> FileInfo<'a> {
    /// Reads the record in the first `written` bytes of the buffer, or in the whole buffer if it is
    /// shorter.
    ///
    /// The name ends with the first zero unit there. The size that the record states is not
    /// trusted.
    ///
    /// # Errors
    ///
    /// In this order:
    /// - [`BAD_BUFFER_SIZE`](crate::formats::uefi_base::Status::BAD_BUFFER_SIZE), with no data, if there are fewer
    ///   than 80 such bytes, or no unit from offset 80 on is zero.
    /// - [`BUFFER_TOO_SMALL`](crate::formats::uefi_base::Status::BUFFER_TOO_SMALL), with the size of the record of
    ///   that name, if the whole buffer is shorter.
    #[inline]
    pub fn from_uefi(buffer: &'a [u8], written: usize) -> Result<FileInfo<'a>, Error<Option<usize>>> {
        let end = name_end(buffer, written, NAME_OFFSET, ALIGNMENT)?;
        Ok(FileInfo {
            bytes: &buffer[..end],
        })
    }

    /// Writes a record to the beginning of the storage, and returns a view of it.
    ///
    /// The stated size is the record's size, rounded up to a multiple of 8. The rounding bytes, and
    /// all that follows, stay as they were.
    ///
    /// # Errors
    ///
    /// [`FileInfoCreationError::InsufficientStorage`], with the record's size, exactly if the
    /// storage is shorter. Every byte then stays as it was.
    #[inline]
    pub fn new(
        storage: &'a mut [u8],
        file_size: u64,
        physical_size: u64,
        create_time: Time,
        last_access_time: Time,
        modification_time: Time,
        attribute: FileAttribute,
        file_name: &CStr16,
    ) -> Result<FileInfo<'a>, FileInfoCreationError> {
        let written = write_file_info(
            storage,
            file_size,
            physical_size,
            create_time,
            last_access_time,
            modification_time,
            attribute,
            file_name,
        );
        FileInfo::over(storage, written)
    }

    /// Returns the size that the record states.
    #[must_use]
    #[inline]
    pub fn size(&self) -> u64 {
        u64_at(self.bytes, SIZE_OFFSET)
    }

    /// Returns the size of the file, in bytes.
    #[must_use]
    #[inline]
    pub fn file_size(&self) -> u64 {
        u64_at(self.bytes, FILE_SIZE_OFFSET)
    }

    /// Returns the size that the file occupies on its volume, in bytes.
    #[must_use]
    #[inline]
    pub fn physical_size(&self) -> u64 {
        u64_at(self.bytes, PHYSICAL_SIZE_OFFSET)
    }

    /// Returns when the file was created: all sixteen bytes, whether or not they are valid.
    #[must_use]
    #[inline]
    pub fn create_time(&self) -> Time {
        Time::read(&self.bytes[CREATE_TIME_OFFSET..LAST_ACCESS_TIME_OFFSET])
    }

    /// Returns when the file was last accessed: all sixteen bytes, whether or not they are valid.
    #[must_use]
    #[inline]
    pub fn last_access_time(&self) -> Time {
        Time::read(&self.bytes[LAST_ACCESS_TIME_OFFSET..MODIFICATION_TIME_OFFSET])
    }

    /// Returns when the file was last modified: all sixteen bytes, whether or not they are valid.
    #[must_use]
    #[inline]
    pub fn modification_time(&self) -> Time {
        Time::read(&self.bytes[MODIFICATION_TIME_OFFSET..ATTRIBUTE_OFFSET])
    }

    /// Returns the file's attributes: all bits, including those without a name.
    #[must_use]
    #[inline]
    pub fn attribute(&self) -> FileAttribute {
        FileAttribute::from_bits_retain(u64_at(self.bytes, ATTRIBUTE_OFFSET))
    }

    /// Returns the units of the name: the last is zero, the NUL, and no other is.
    #[must_use]
    #[inline]
    pub fn file_name(&self) -> UnalignedSlice<'a> {
        name_at(self.bytes, NAME_OFFSET)
    }

    /// Returns whether the file is a directory.
    #[must_use]
    #[inline]
    pub fn is_directory(&self) -> bool {
        self.attribute().contains(FileAttribute::DIRECTORY)
    }

    /// Returns whether the file is not a directory.
    #[must_use]
    #[inline]
    pub fn is_regular_file(&self) -> bool {
        !self.is_directory()
    }

    /// Returns the bytes of the stated size and the fields.
    #[inline]
    fn header(&self) -> &'a [u8] {
        &self.bytes[..NAME_OFFSET]
    }

    /// Returns the view of the record that was written, if it was.
    #[inline]
    fn over(
        bytes: &'a [u8],
        written: Result<usize, FileInfoCreationError>,
    ) -> Result<FileInfo<'a>, FileInfoCreationError> {
        let end = written?;
        Ok(FileInfo {
            bytes: &bytes[..end],
        })
    }
}

impl PartialEq for FileInfo<'_> {
    #[inline]
    fn eq(&self, other: &Self) -> bool {
        self.header() == other.header() && self.file_name() == other.file_name()
    }
}

impl Eq for FileInfo<'_> {}

impl Align for FileInfo<'_> {
    #[inline]
    fn alignment() -> usize {
        ALIGNMENT
    }
}

impl IdentifiedBy for FileInfo<'_> {
    type Identity = FileInfoIdentity;
}

impl FileProtocolInfo for FileInfo<'_> {}
