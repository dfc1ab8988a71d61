// @generated from proved source. It is not edited.

use crate::formats::uefi_path::device_type::{DeviceSubType, DeviceType};
use crate::formats::uefi_path::error::ByteConversionError;
use crate::formats::uefi_base::little_endian::u16_at;

// The offsets of a node's type, subtype and length.
pub(crate) const DEVICE_TYPE_OFFSET: usize = 0;

pub(crate) const SUB_TYPE_OFFSET: usize = 1;

pub(crate) const LENGTH_OFFSET: usize = 2;

/// The length of a header, which is the offset of a node's data.
pub(crate) const HEADER_LENGTH: usize = 4;

/// The header of a node, its first four bytes (UEFI 2.10, 10.2 `EFI_DEVICE_PATH_PROTOCOL`).
///
/// | offset | bytes | field |
/// |---|---|---|
/// | 0 | 1 | type |
/// | 1 | 1 | subtype |
/// | 2 | 2 | length of the whole node in bytes, little-endian |
///
/// The length is the one that the bytes state. It may be below 4, or beyond the end of the bytes.
#[derive(Clone, Copy, PartialEq, Eq, Debug)]
#[repr(C)]
pub struct DevicePathHeader {
    device_type: DeviceType,
    sub_type: DeviceSubType,
    length: u16,
}

impl DevicePathHeader {
    /// Returns the header with these fields, whatever the length is.
    #[must_use]
    #[inline]
    pub const fn new(device_type: DeviceType, sub_type: DeviceSubType, length: u16) -> DevicePathHeader {
        DevicePathHeader {
            device_type,
            sub_type,
            length,
        }
    }

    /// Returns the type.
    #[must_use]
    #[inline]
    pub const fn device_type(&self) -> DeviceType {
        self.device_type
    }

    /// Returns the subtype.
    #[must_use]
    #[inline]
    pub const fn sub_type(&self) -> DeviceSubType {
        self.sub_type
    }

    /// Returns the stated length of the whole node in bytes.
    #[must_use]
    #[inline]
    pub const fn length(&self) -> u16 {
        self.length
    }

    /// Returns the four bytes of the header.
    #[must_use]
    #[inline]
    pub const fn to_bytes(self) -> [u8; 4] {
        let [low, high] = self.length.to_le_bytes();
        [self.device_type.0, self.sub_type.0, low, high]
    }
}

/// Reads the header in the first four bytes, whatever length it states, and ignores the others.
///
/// # Errors
///
/// [`ByteConversionError::InvalidLength`] if there are fewer than four bytes.
impl<'a> TryFrom<&'a [u8]> for DevicePathHeader {
    type Error = ByteConversionError;

    #[inline]
    fn try_from(bytes: &'a [u8]) -> Result<DevicePathHeader, ByteConversionError> {
        if bytes.len() < HEADER_LENGTH {
            return Err(ByteConversionError::InvalidLength);
        }
        Ok(DevicePathHeader {
            device_type: DeviceType(bytes[DEVICE_TYPE_OFFSET]),
            sub_type: DeviceSubType(bytes[SUB_TYPE_OFFSET]),
            length: u16_at(bytes, LENGTH_OFFSET),
        })
    }
}
