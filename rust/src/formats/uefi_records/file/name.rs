// @generated from proved source. It is not edited.

//! What readers and writers of records share: the name at a record's end, the verdict on written
//! bytes, and the room that a writer needs.

use crate::formats::uefi_records::file::creation_error::FileInfoCreationError;
use crate::formats::uefi_records::file::first_zero::{UNIT_LENGTH, first_zero_unit};
use crate::formats::uefi_base::{Error, Status, UnalignedSlice};

/// Returns the units of the name from the offset on.
#[inline]
pub(crate) fn name_at(bytes: &[u8], offset: usize) -> UnalignedSlice<'_> {
    let (_, name) = bytes.split_at(offset);
    UnalignedSlice::new(name)
}

/// Returns the number, rounded up to a multiple of the alignment.
#[inline]
fn round_up(n: usize, alignment: usize) -> usize {
    (n + (alignment - 1)) / alignment * alignment
}

/// Returns the end of the record in the first `written` bytes, whose name begins at the offset.
#[inline]
pub(crate) fn name_end(
    buffer: &[u8],
    written: usize,
    offset: usize,
    alignment: usize,
) -> Result<usize, Error<Option<usize>>> {
    let written = &buffer[..written.min(buffer.len())];
    let Some(index) = first_zero_unit(&written[offset.min(written.len())..]) else {
        return Err(Error::new(Status::BAD_BUFFER_SIZE, None));
    };
    let end = offset + UNIT_LENGTH * (index + 1);
    let size = round_up(end, alignment);
    if buffer.len() < size {
        Err(Error::new(Status::BUFFER_TOO_SMALL, Some(size)))
    } else {
        Ok(end)
    }
}

/// Returns the end and the size of a record with a name of this many units, if a buffer of this
/// length has room for it.
#[inline]
pub(crate) fn room_for(
    units: usize,
    offset: usize,
    alignment: usize,
    room: usize,
) -> Result<(usize, usize), FileInfoCreationError> {
    let end = offset + UNIT_LENGTH * units;
    let size = round_up(end, alignment);
    if room < size {
        Err(FileInfoCreationError::InsufficientStorage(size))
    } else {
        Ok((end, size))
    }
}
