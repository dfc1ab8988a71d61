// @generated from proved source. It is not edited.

#[cfg(feature = "alloc")]
use alloc::vec::Vec;
#[cfg(feature = "alloc")]
use crate::support::fallible::*;

#[cfg(feature = "alloc")]
use crate::formats::uefi_path::boxed::BoxedDevicePath;
#[cfg(feature = "alloc")]
use crate::formats::uefi_path::build::BuildError;
use crate::formats::uefi_path::device_type::{DeviceSubType, DeviceType};
use crate::formats::uefi_path::header::{DevicePathHeader, HEADER_LENGTH};
#[cfg(feature = "alloc")]
use crate::formats::uefi_path::instance::DevicePathInstance;
#[cfg(feature = "alloc")]
use crate::formats::uefi_path::node::DevicePathNode;
use crate::formats::uefi_path::path::DevicePath;
#[cfg(feature = "alloc")]
use crate::support::alloc::AllocError;

impl<'a> DevicePath<'a> {
    /// Returns the path with the nodes of this one before its end-entire node, and then those of
    /// the other one (UEFI 2.10, 10.5.2 `AppendDevicePath`).
    ///
    /// # Errors
    ///
    /// [`AllocError`] if an allocation fails.
    #[cfg(feature = "alloc")]
    #[inline]
    pub fn append_path(
        &self,
        other: &DevicePath<'_>,
    ) -> Result<BoxedDevicePath, AllocError> {
        let bytes = concat(&[self.nodes(), other.as_bytes()])?;
        Ok(BoxedDevicePath::new_unchecked(bytes))
    }

    /// Returns the path with the nodes of this one before its end-entire node, and then the node
    /// (UEFI 2.10, 10.5.2 `AppendDeviceNode`). Its own end-entire node has no data.
    ///
    /// # Errors
    ///
    /// Fails with the first of these errors that applies:
    ///
    /// - [`BuildError::EndEntire`] if the node is an end-entire node.
    /// - [`BuildError::Memory`] if an allocation fails.
    #[cfg(feature = "alloc")]
    #[inline]
    pub fn append_node(
        &self,
        node: &DevicePathNode<'_>,
    ) -> Result<BoxedDevicePath, BuildError> {
        if node.is_end_entire() {
            return Err(BuildError::EndEntire);
        }
        let bytes = concat(&[self.nodes(), node.as_bytes(), &end_entire_bytes()])?;
        Ok(BoxedDevicePath::new_unchecked(bytes))
    }

    /// Returns the path with the instances of this one, and then the instance (UEFI 2.10, 10.5.2
    /// `AppendDevicePathInstance`). The node between them ends the instance before it, and the
    /// end-entire node ends the path: both have no data.
    ///
    /// # Errors
    ///
    /// [`AllocError`] if an allocation fails.
    #[cfg(feature = "alloc")]
    #[inline]
    pub fn append_instance(
        &self,
        instance: &DevicePathInstance<'_>,
    ) -> Result<BoxedDevicePath, AllocError> {
        let bytes = concat(
            &[
                self.nodes(),
                &end_instance_bytes(),
                instance.nodes(),
                &end_entire_bytes(),
            ],
        )?;
        Ok(BoxedDevicePath::new_unchecked(bytes))
    }
}

/// Returns the bytes of the end-entire node without data.
#[inline]
pub(crate) fn end_entire_bytes() -> [u8; HEADER_LENGTH] {
    DevicePathHeader::new(DeviceType::END, DeviceSubType::END_ENTIRE, 4).to_bytes()
}

/// Returns the bytes of the node without data that ends an instance before another one.
#[cfg(feature = "alloc")]
#[inline]
fn end_instance_bytes() -> [u8; HEADER_LENGTH] {
    DevicePathHeader::new(DeviceType::END, DeviceSubType::END_INSTANCE, 4).to_bytes()
}

/// Returns a copy of the parts, one after another.
#[cfg(feature = "alloc")]
#[inline]
fn concat(parts: &[&[u8]]) -> Result<Vec<u8>, AllocError> {
    let mut bytes = Vec::new();
    for part in parts {
        bytes.fallible_extend_from_slice(part)?;
    }
    Ok(bytes)
}
