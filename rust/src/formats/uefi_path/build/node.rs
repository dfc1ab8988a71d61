// @generated from proved source. It is not edited.

use crate::formats::uefi_path::build::error::BuildError;
use crate::formats::uefi_path::device_type::{DeviceSubType, DeviceType};
use crate::formats::uefi_path::node::DevicePathNode;
use crate::formats::uefi_base::buffer::put;

/// What can be put into a path: a node that was read, or a value of a type of nodes.
pub trait BuildNode {
    /// Returns the type and the subtype of the node.
    #[must_use]
    fn full_type(&self) -> (DeviceType, DeviceSubType);

    /// Writes the node to the start of the buffer, and returns its length in bytes. The bytes after
    /// it stay.
    ///
    /// # Errors
    ///
    /// Fails with the first of these errors that applies, and leaves every byte of the buffer
    /// unchanged:
    ///
    /// - [`BuildError::Form`] if no node of its type has the value.
    /// - [`BuildError::NodeTooBig`] if the node is longer than 65535 bytes.
    /// - [`BuildError::BufferTooSmall`] with the length of the node if the buffer is shorter.
    fn write(&self, buffer: &mut [u8]) -> Result<usize, BuildError>;
}

impl<'a> BuildNode for DevicePathNode<'a> {
    #[inline]
    fn full_type(&self) -> (DeviceType, DeviceSubType) {
        (self.device_type(), self.sub_type())
    }

    #[inline]
    fn write(&self, buffer: &mut [u8]) -> Result<usize, BuildError> {
        let bytes = self.as_bytes();
        if buffer.len() < bytes.len() {
            return Err(BuildError::BufferTooSmall(bytes.len()));
        }
        put(buffer, 0, bytes);
        Ok(bytes.len())
    }
}

/// Returns whether the node is an end-entire node.
#[inline]
pub(crate) fn is_end_entire<N: BuildNode>(node: &N) -> bool {
    node.full_type() == (DeviceType::END, DeviceSubType::END_ENTIRE)
}
