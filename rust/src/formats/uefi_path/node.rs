// @generated from proved source. It is not edited.

use crate::formats::uefi_path::device_type::{DeviceSubType, DeviceType};
use crate::formats::uefi_path::error::ByteConversionError;
use crate::formats::uefi_path::header::{DEVICE_TYPE_OFFSET, HEADER_LENGTH, LENGTH_OFFSET, SUB_TYPE_OFFSET};
use crate::formats::uefi_path::walk::split_node;
use crate::formats::uefi_base::little_endian::u16_at;

/// One node of a device path (UEFI 2.10, 10.3.1): a type, a subtype and data.
///
/// | offset | bytes | field |
/// |---|---|---|
/// | 0 | 1 | type |
/// | 1 | 1 | subtype |
/// | 2 | 2 | length of the whole node in bytes, little-endian, 4 to 65535 |
/// | 4 | length - 4 | data |
///
/// A view: it borrows the bytes that it was read from, and what it returns lives as long as they
/// do.
#[derive(Clone, Copy)]
pub struct DevicePathNode<'a> {
    bytes: &'a [u8],
}

impl<'a> DevicePathNode<'a> {
    /// Returns the node that `bytes`, which are known to be a node, encode.
    #[inline]
    pub(crate) fn new_unchecked(bytes: &'a [u8]) -> DevicePathNode<'a> {
        DevicePathNode { bytes }
    }

    /// Returns the type.
    #[must_use]
    #[inline]
    pub fn device_type(&self) -> DeviceType {
        DeviceType(self.bytes[DEVICE_TYPE_OFFSET])
    }

    /// Returns the subtype.
    #[must_use]
    #[inline]
    pub fn sub_type(&self) -> DeviceSubType {
        DeviceSubType(self.bytes[SUB_TYPE_OFFSET])
    }

    /// Returns the type and the subtype.
    #[must_use]
    #[inline]
    pub fn full_type(&self) -> (DeviceType, DeviceSubType) {
        (self.device_type(), self.sub_type())
    }

    /// Returns the length of the whole node in bytes, including the header: 4 to 65535.
    #[must_use]
    #[inline]
    pub fn length(&self) -> u16 {
        u16_at(self.bytes, LENGTH_OFFSET)
    }

    /// Returns whether the node ends the whole path: whether it has the type END and the subtype
    /// END_ENTIRE (UEFI 2.10, 10.3.1), whatever its data is.
    #[must_use]
    #[inline]
    pub fn is_end_entire(&self) -> bool {
        self.full_type() == (DeviceType::END, DeviceSubType::END_ENTIRE)
    }

    /// Returns the data: the bytes after the four header bytes, at most 65531.
    #[must_use]
    #[inline]
    pub fn data(&self) -> &'a [u8] {
        &self.bytes[HEADER_LENGTH..]
    }

    /// Returns all bytes of the node, including the header.
    #[must_use]
    #[inline]
    pub fn as_bytes(&self) -> &'a [u8] {
        self.bytes
    }
}

/// Reads the node that the bytes start with, and ignores the bytes after it.
///
/// # Errors
///
/// [`ByteConversionError::InvalidLength`] if no prefix of the bytes is a node: if there are fewer
/// than four bytes, or if the length that the header states is below 4 or beyond the end of the
/// bytes.
impl<'a> TryFrom<&'a [u8]> for DevicePathNode<'a> {
    type Error = ByteConversionError;

    #[inline]
    fn try_from(bytes: &'a [u8]) -> Result<DevicePathNode<'a>, ByteConversionError> {
        let (node, _) = split_node(bytes)?;
        Ok(node)
    }
}

/// Two nodes are equal if all their bytes are.
impl<'a> PartialEq for DevicePathNode<'a> {
    #[inline]
    fn eq(&self, other: &Self) -> bool {
        self.as_bytes() == other.as_bytes()
    }
}

impl<'a> Eq for DevicePathNode<'a> {}
