// @generated from proved source. It is not edited.

use crate::formats::uefi_records::file::creation_error::FileInfoCreationError;
use crate::formats::uefi_records::file::identity::FileSystemVolumeLabelIdentity;
use crate::formats::uefi_records::file::name::{name_at, name_end};
use crate::formats::uefi_records::file::protocol_info::FileProtocolInfo;
use crate::formats::uefi_records::file::write::write_file_system_volume_label;
use crate::formats::uefi_base::{Align, CStr16, Error, IdentifiedBy, UnalignedSlice};

// The offset of the label, and the record's alignment.
pub(crate) const LABEL_OFFSET: usize = 0;

pub(crate) const ALIGNMENT: usize = 2;

/// A volume label record (UEFI 2.10, 13.5 `EFI_FILE_PROTOCOL.GetInfo()`,
/// `EFI_FILE_SYSTEM_VOLUME_LABEL`): the label of a volume, and nothing else.
///
/// | offset | bytes | field |
/// |---|---|---|
/// | 0 | 2 a unit | label, little-endian, with its NUL |
///
/// A view: it borrows the bytes that it was read from or written to, and what it returns lives as
/// long as they do. Two are equal if the units of the labels are.
#[derive(Clone, Copy)]
pub struct FileSystemVolumeLabel<'a> {
    bytes: &'a [u8],
}

impl<'a> FileSystemVolumeLabel<'a> {
    /// Reads the record in the first `written` bytes of the buffer, or in the whole buffer if it is
    /// shorter.
    ///
    /// The label ends with the first zero unit there.
    ///
    /// # Errors
    ///
    /// [`BAD_BUFFER_SIZE`](crate::formats::uefi_base::Status::BAD_BUFFER_SIZE), with no data, if no unit there is
    /// zero.
    #[inline]
    pub fn from_uefi(
        buffer: &'a [u8],
        written: usize,
    ) -> Result<FileSystemVolumeLabel<'a>, Error<Option<usize>>> {
        let end = name_end(buffer, written, LABEL_OFFSET, ALIGNMENT)?;
        Ok(FileSystemVolumeLabel {
            bytes: &buffer[..end],
        })
    }

    /// Writes a record to the beginning of the storage, and returns a view of it. All that follows
    /// stays as it was.
    ///
    /// # Errors
    ///
    /// [`FileInfoCreationError::InsufficientStorage`], with the record's size, exactly if the
    /// storage is shorter. Every byte then stays as it was.
    #[inline]
    pub fn new(
        storage: &'a mut [u8],
        volume_label: &CStr16,
    ) -> Result<FileSystemVolumeLabel<'a>, FileInfoCreationError> {
        let written = write_file_system_volume_label(storage, volume_label);
        FileSystemVolumeLabel::over(storage, written)
    }

    /// Returns the units of the label: the last is zero, the NUL, and no other is.
    #[must_use]
    #[inline]
    pub fn volume_label(&self) -> UnalignedSlice<'a> {
        name_at(self.bytes, LABEL_OFFSET)
    }

    /// Returns the view of the record that was written, if it was.
    #[inline]
    fn over(
        bytes: &'a [u8],
        written: Result<usize, FileInfoCreationError>,
    ) -> Result<FileSystemVolumeLabel<'a>, FileInfoCreationError> {
        let end = written?;
        Ok(FileSystemVolumeLabel {
            bytes: &bytes[..end],
        })
    }
}

impl PartialEq for FileSystemVolumeLabel<'_> {
    #[inline]
    fn eq(&self, other: &Self) -> bool {
        self.volume_label() == other.volume_label()
    }
}

impl Eq for FileSystemVolumeLabel<'_> {}

impl Align for FileSystemVolumeLabel<'_> {
    #[inline]
    fn alignment() -> usize {
        ALIGNMENT
    }
}

impl IdentifiedBy for FileSystemVolumeLabel<'_> {
    type Identity = FileSystemVolumeLabelIdentity;
}

impl FileProtocolInfo for FileSystemVolumeLabel<'_> {}
