// @generated from proved source. It is not edited.

#[cfg(feature = "alloc")]
use alloc::vec::Vec;

#[cfg(feature = "alloc")]
use crate::formats::uefi_path::error::ByteConversionError;
#[cfg(feature = "alloc")]
use crate::formats::uefi_path::instance::DevicePathInstance;
#[cfg(feature = "alloc")]
use crate::formats::uefi_path::path::DevicePath;
#[cfg(feature = "alloc")]
use crate::formats::uefi_path::walk::{StopCondition, split_nodes};

/// A device path that owns its bytes: the owned form of [`DevicePath`], made by
/// [`DevicePath::to_boxed`].
#[cfg(feature = "alloc")]
pub struct BoxedDevicePath {
    bytes: Vec<u8>,
}

/// An instance of a device path that owns its bytes: the owned form of [`DevicePathInstance`], made
/// by [`DevicePathInstance::to_boxed`].
#[cfg(feature = "alloc")]
pub struct BoxedDevicePathInstance {
    bytes: Vec<u8>,
}

#[cfg(feature = "alloc")]
impl BoxedDevicePath {
    /// Returns the path that `bytes`, which are known to be a path, encode.
    #[inline]
    pub(crate) fn new_unchecked(bytes: Vec<u8>) -> BoxedDevicePath {
        BoxedDevicePath { bytes }
    }

    /// Returns a view of the path that this box owns.
    #[must_use]
    #[inline]
    pub fn as_path(&self) -> DevicePath<'_> {
        DevicePath::new_unchecked(self.bytes.as_slice())
    }
}

/// Keeps the path that the bytes start with, where they stand, and drops the bytes after it. This
/// takes no memory.
///
/// # Errors
///
/// [`ByteConversionError::InvalidLength`] if no prefix of the bytes is a path: exactly where
/// `DevicePath::try_from` fails.
#[cfg(feature = "alloc")]
impl TryFrom<Vec<u8>> for BoxedDevicePath {
    type Error = ByteConversionError;

    #[inline]
    fn try_from(mut bytes: Vec<u8>) -> Result<BoxedDevicePath, ByteConversionError> {
        let (path, _) = split_nodes(bytes.as_slice(), StopCondition::EndEntireNode)?;
        let length = path.len();
        bytes.truncate(length);
        Ok(BoxedDevicePath::new_unchecked(bytes))
    }
}

#[cfg(feature = "alloc")]
impl BoxedDevicePathInstance {
    /// Returns the instance that `bytes`, which are known to be an instance, encode.
    #[inline]
    pub(crate) fn new_unchecked(bytes: Vec<u8>) -> BoxedDevicePathInstance {
        BoxedDevicePathInstance { bytes }
    }

    /// Returns a view of the instance that this box owns.
    #[must_use]
    #[inline]
    pub fn as_instance(&self) -> DevicePathInstance<'_> {
        DevicePathInstance::new_unchecked(self.bytes.as_slice())
    }
}
