// @generated from proved source. It is not edited.

#[cfg(feature = "alloc")]
use alloc::vec::Vec;
#[cfg(feature = "alloc")]
use crate::support::fallible::*;

use crate::formats::uefi_path_text::parse::error::FromTextError;
use crate::formats::uefi_path_text::parse::nodes::TextNodes;
use crate::formats::uefi_base::buffer::put;
#[cfg(feature = "alloc")]
use crate::formats::uefi_path::BoxedDevicePath;
use crate::formats::uefi_path::DevicePath;

/// The end-entire node without data.
const END_ENTIRE: [u8; 4] = [0x7f, 0xff, 4, 0];

/// Reads the text of a path, writes the path to the start of the buffer, and returns its length in
/// bytes. The bytes that follow stay as they were.
///
/// [`from_text`] does the same, and returns a view of the path.
///
/// # Errors
///
/// The errors of [`from_text`]. Every byte of the buffer is then unchanged.
#[inline]
pub fn write_from_text(buffer: &mut [u8], text: &str) -> Result<usize, FromTextError> {
    let needed = path_len(text)?;
    if buffer.len() < needed {
        return Err(FromTextError::Buffer(needed));
    }
    put_path(buffer, text);
    Ok(needed)
}

/// Reads the text of a path, such as `PciRoot(0x0)/Pci(0x2,0x0)`, writes the path to the start of a
/// buffer, and returns a view of it (UEFI 2.10, 10.6.1). The bytes that follow stay as they were. The
/// text is the one that [`to_text`](crate::formats::uefi_path_text::to_text) writes of the path with both flags false, or one
/// of its other spellings.
///
/// [`write_from_text`] does the same for a caller that goes on with the buffer.
///
/// # Errors
///
/// Fails with the first of these errors that applies, and leaves every byte of the buffer as it was:
///
/// - [`FromTextError::UnknownNode`], [`FromTextError::Argument`], [`FromTextError::Missing`] or
///   [`FromTextError::TooLong`] if the text is that of no path.
/// - [`FromTextError::Buffer`] with the length of the path if the buffer is shorter.
#[inline]
pub fn from_text<'a>(buffer: &'a mut [u8], text: &str) -> Result<DevicePath<'a>, FromTextError> {
    let written = write_from_text(buffer, text);
    path_from_written(buffer, written)
}

/// Returns the view of the path that was written to the start of the bytes, if one was.
#[inline]
fn path_from_written<'a>(
    bytes: &'a [u8],
    written: Result<usize, FromTextError>,
) -> Result<DevicePath<'a>, FromTextError> {
    let length = written?;
    let (path, _) = bytes.split_at(length);
    match DevicePath::try_from(path) {
        Ok(path) => Ok(path),
        Err(_) => unreachable!(),
    }
}

/// Reads the text of a path into new memory (UEFI 2.10, 10.6.1).
///
/// # Errors
///
/// Fails with the first of these errors that applies:
///
/// - [`FromTextError::UnknownNode`], [`FromTextError::Argument`], [`FromTextError::Missing`] or
///   [`FromTextError::TooLong`] if the text is that of no path.
/// - [`FromTextError::Memory`] if an allocation fails.
#[cfg(feature = "alloc")]
#[inline]
pub fn from_text_in(text: &str) -> Result<BoxedDevicePath, FromTextError> {
    let needed = path_len(text)?;
    let mut bytes = Vec::fallible_from_elem(0, needed)?;
    put_path(&mut bytes, text);
    match BoxedDevicePath::try_from(bytes) {
        Ok(path) => Ok(path),
        Err(_) => unreachable!(),
    }
}

/// Returns the length in bytes of the path whose text this is, or [`usize::MAX`] if it is greater.
///
/// # Errors
///
/// The first error of the text.
#[inline]
fn path_len(text: &str) -> Result<usize, FromTextError> {
    let mut nodes = TextNodes::new(text);
    let mut size = 0usize;
    while let Some(node) = nodes.next()? {
        size = size.saturating_add(node.size());
        if node.is_end_entire() {
            nodes.end()?;
            return Ok(size);
        }
    }
    Ok(size.saturating_add(END_ENTIRE.len()))
}

/// Writes the path whose text this is to the start of the buffer.
#[inline]
fn put_path(buffer: &mut [u8], text: &str) {
    let mut nodes = TextNodes::new(text);
    let mut end = 0;
    while let Some(node) = nodes.next().unwrap() {
        end = node.put(buffer, end);
        if node.is_end_entire() {
            return;
        }
    }
    put(buffer, end, &END_ENTIRE);
}
