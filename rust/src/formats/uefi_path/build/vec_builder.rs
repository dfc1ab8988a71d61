// @generated from proved source. It is not edited.

#[cfg(feature = "alloc")]
use alloc::vec::Vec;
#[cfg(feature = "alloc")]
use crate::support::fallible::*;

#[cfg(feature = "alloc")]
use crate::formats::uefi_path::append::end_entire_bytes;
#[cfg(feature = "alloc")]
use crate::formats::uefi_path::boxed::BoxedDevicePath;
#[cfg(feature = "alloc")]
use crate::formats::uefi_path::build::error::BuildError;
#[cfg(feature = "alloc")]
use crate::formats::uefi_path::build::node::{BuildNode, is_end_entire};

/// A path that is built in a vector, node by node (UEFI 2.10, 10.2). It grows as nodes are pushed.
#[cfg(feature = "alloc")]
pub struct DevicePathVecBuilder {
    bytes: Vec<u8>,
}

#[cfg(feature = "alloc")]
impl core::fmt::Debug for DevicePathVecBuilder {
    fn fmt(&self, f: &mut core::fmt::Formatter<'_>) -> core::fmt::Result {
        f.debug_struct("DevicePathVecBuilder")
            .field("bytes", &crate::support::debug::Bytes(&self.bytes))
            .finish()
    }
}

#[cfg(feature = "alloc")]
impl DevicePathVecBuilder {
    /// Returns a builder without a node. This takes no memory.
    #[must_use]
    #[inline]
    pub fn new() -> DevicePathVecBuilder {
        DevicePathVecBuilder {
            bytes: Vec::new(),
        }
    }

    /// Appends the node to those that were pushed before, and returns the builder.
    ///
    /// # Errors
    ///
    /// Fails with the first of these errors that applies:
    ///
    /// - [`BuildError::EndEntire`] if the node is an end-entire node.
    /// - [`BuildError::Form`] if no node of its type has the value.
    /// - [`BuildError::NodeTooBig`] if the node is longer than 65535 bytes.
    /// - [`BuildError::Memory`] if an allocation fails.
    ///
    /// The builder is gone then. [`DevicePathVecBuilder::push_node`] keeps it.
    #[inline]
    pub fn push<N: BuildNode>(mut self, node: &N) -> Result<DevicePathVecBuilder, BuildError> {
        self.push_node(node)?;
        Ok(self)
    }

    /// Appends the node to those that were pushed before.
    ///
    /// # Errors
    ///
    /// The errors of [`DevicePathVecBuilder::push`]. The nodes of the builder are then unchanged.
    #[inline]
    pub fn push_node<N: BuildNode>(&mut self, node: &N) -> Result<(), BuildError> {
        append_node(&mut self.bytes, node)?;
        Ok(())
    }

    /// Appends the end-entire node to the nodes that were pushed, and returns the path.
    ///
    /// # Errors
    ///
    /// [`BuildError::Memory`] if an allocation fails.
    #[inline]
    pub fn finalize(self) -> Result<BoxedDevicePath, BuildError> {
        let DevicePathVecBuilder { mut bytes } = self;
        bytes.fallible_extend_from_slice(&end_entire_bytes())?;
        Ok(BoxedDevicePath::new_unchecked(bytes))
    }
}

/// Appends the bytes of the node.
#[cfg(feature = "alloc")]
#[inline]
fn append_node<N: BuildNode>(
    bytes: &mut Vec<u8>,
    node: &N,
) -> Result<(), BuildError> {
    if is_end_entire(node) {
        return Err(BuildError::EndEntire);
    }
    let size = size_of(node)?;
    let offset = bytes.len();
    bytes.fallible_resize(offset + size, 0)?;
    node.write(&mut bytes[offset..])?;
    Ok(())
}

/// Returns the length of the node in bytes.
#[cfg(feature = "alloc")]
#[inline]
fn size_of<N: BuildNode>(node: &N) -> Result<usize, BuildError> {
    match node.write(&mut []) {
        Err(BuildError::BufferTooSmall(size)) => Ok(size),
        other => other,
    }
}
