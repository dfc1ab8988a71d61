// @generated from proved source. It is not edited.

use crate::formats::uefi_path::append::end_entire_bytes;
use crate::formats::uefi_path::build::error::BuildError;
use crate::formats::uefi_path::build::node::{BuildNode, is_end_entire};
use crate::formats::uefi_path::header::HEADER_LENGTH;
use crate::formats::uefi_path::path::DevicePath;
use crate::formats::uefi_base::buffer::put;

/// A path that is built in a buffer, node by node (UEFI 2.10, 10.2).
///
/// The nodes lie one after another at the start of the buffer. The bytes after them stay.
///
/// # Examples
///
/// The path borrows the buffer:
///
/// ```
/// use uefi_formats::UnalignedSlice;
/// use uefi_formats::proto::device_path::DevicePath;
/// use uefi_formats::proto::device_path::build::{BuildError, DevicePathBuilder};
/// use uefi_formats::proto::device_path::media::{
///     FilePath, HardDrive, PartitionFormat, PartitionSignature,
/// };
///
/// /// Builds the path of a file on a partition. `name` has two bytes a unit, little-endian, and a NUL
/// /// at its end.
/// fn file<'a>(
///     buffer: &'a mut [u8],
///     partition: &HardDrive,
///     name: &[u8],
/// ) -> Result<DevicePath<'a>, BuildError> {
///     DevicePathBuilder::with_buf(buffer)
///         .push(partition)?
///         .push(&FilePath { path_name: UnalignedSlice::new(name) })?
///         .finalize()
/// }
///
/// let partition = HardDrive {
///     partition_number: 2,
///     partition_start: 4096,
///     partition_size: 65536,
///     partition_signature: PartitionSignature::Mbr([0xd4, 0xc3, 0xb2, 0xa1]),
///     partition_format: PartitionFormat::MBR,
/// };
/// let path = file(&mut [0; 60], &partition, b"a\0\0\0").map(|path| path.as_bytes().len());
/// assert_eq!(path, Ok(42 + 8 + 4));
/// let refused = file(&mut [0; 53], &partition, b"a\0\0\0").err();
/// assert_eq!(refused, Some(BuildError::BufferTooSmall(54)));
/// ```
pub struct DevicePathBuilder<'a> {
    buffer: &'a mut [u8],
    end: usize,
}

impl core::fmt::Debug for DevicePathBuilder<'_> {
    fn fmt(&self, f: &mut core::fmt::Formatter<'_>) -> core::fmt::Result {
        f.debug_struct("DevicePathBuilder")
            .field("buffer", &crate::support::debug::Bytes(&*self.buffer))
            .field("end", &self.end)
            .finish()
    }
}

impl<'a> DevicePathBuilder<'a> {
    /// Returns a builder of a path in the buffer, without a node.
    #[inline]
    pub fn with_buf(buffer: &'a mut [u8]) -> DevicePathBuilder<'a> {
        DevicePathBuilder { buffer, end: 0 }
    }

    /// Writes the node after those that were pushed before, and returns the builder.
    ///
    /// # Errors
    ///
    /// Fails with the first of these errors that applies, and leaves every byte of the buffer
    /// unchanged:
    ///
    /// - [`BuildError::EndEntire`] if the node is an end-entire node.
    /// - [`BuildError::Form`] if no node of its type has the value.
    /// - [`BuildError::NodeTooBig`] if the node is longer than 65535 bytes.
    /// - [`BuildError::BufferTooSmall`] with the length of all nodes, including this one, if the
    ///   buffer is shorter.
    ///
    /// The builder is gone then. [`DevicePathBuilder::push_node`] keeps it.
    #[inline]
    pub fn push<N: BuildNode>(self, node: &N) -> Result<DevicePathBuilder<'a>, BuildError> {
        let DevicePathBuilder { buffer, end } = self;
        let written = push_at(buffer, end, node);
        if is_written(written) {
            return DevicePathBuilder::from_written(buffer, written);
        }
        DevicePathBuilder::not_written(written)
    }

    /// Returns the builder of the path whose next node was written.
    #[inline]
    fn from_written(
        buffer: &'a mut [u8],
        written: Result<usize, BuildError>,
    ) -> Result<DevicePathBuilder<'a>, BuildError> {
        let end = written?;
        Ok(DevicePathBuilder { buffer, end })
    }

    /// Returns the error of a node that wasn't written.
    #[inline]
    fn not_written(written: Result<usize, BuildError>) -> Result<DevicePathBuilder<'a>, BuildError> {
        Err(written.unwrap_err())
    }

    /// Writes the node after those that were pushed before.
    ///
    /// # Errors
    ///
    /// The errors of [`DevicePathBuilder::push`]. The builder and every byte of the buffer are then
    /// unchanged.
    #[inline]
    pub fn push_node<N: BuildNode>(&mut self, node: &N) -> Result<(), BuildError> {
        let buffer = &mut *self.buffer;
        self.end = push_at(buffer, self.end, node)?;
        Ok(())
    }

    /// Writes the end-entire node after the nodes that were pushed, and returns the path. The bytes
    /// that follow stay as they were.
    ///
    /// [`DevicePathBuilder::write_end`] does the same for a caller that goes on with the buffer.
    ///
    /// # Errors
    ///
    /// [`BuildError::BufferTooSmall`] with the length of the path if the buffer is shorter. Every
    /// byte of the buffer is then unchanged.
    #[inline]
    pub fn finalize(self) -> Result<DevicePath<'a>, BuildError> {
        let DevicePathBuilder { buffer, end } = self;
        let written = push_end_at(buffer, end);
        path_in(buffer, written)
    }

    /// Writes the end-entire node after the nodes that were pushed, and returns the length of the
    /// path in bytes. [`DevicePathBuilder::finalize`] does the same, and returns a view of the path.
    ///
    /// # Errors
    ///
    /// The error of [`DevicePathBuilder::finalize`]. Every byte of the buffer is then unchanged.
    #[inline]
    pub fn write_end(self) -> Result<usize, BuildError> {
        let DevicePathBuilder { buffer, end } = self;
        push_end_at(buffer, end)
    }
}

/// Writes the node at the offset, and returns the offset of its end.
#[inline]
fn push_at<N: BuildNode>(buffer: &mut [u8], offset: usize, node: &N) -> Result<usize, BuildError> {
    if is_end_entire(node) {
        return Err(BuildError::EndEntire);
    }
    let (_, rest) = buffer.split_at_mut(offset);
    match node.write(rest) {
        Ok(size) => Ok(offset + size),
        Err(BuildError::BufferTooSmall(size)) => Err(BuildError::BufferTooSmall(offset + size)),
        Err(error) => Err(error),
    }
}

/// Returns whether a node was written.
#[inline]
fn is_written(written: Result<usize, BuildError>) -> bool {
    written.is_ok()
}

/// Writes the end-entire node at the offset, and returns the offset of its end.
#[inline]
fn push_end_at(buffer: &mut [u8], offset: usize) -> Result<usize, BuildError> {
    let end = offset + HEADER_LENGTH;
    if buffer.len() < end {
        return Err(BuildError::BufferTooSmall(end));
    }
    put(buffer, offset, &end_entire_bytes());
    Ok(end)
}

/// Returns the path that was written to the start of the bytes, if it was.
#[inline]
fn path_in<'a>(
    bytes: &'a [u8],
    written: Result<usize, BuildError>,
) -> Result<DevicePath<'a>, BuildError> {
    let end = written?;
    Ok(DevicePath::new_unchecked(&bytes[..end]))
}
