// @generated from proved source. It is not edited.

#[cfg(feature = "alloc")]
use alloc::vec::Vec;
#[cfg(feature = "alloc")]
use crate::support::fallible::*;

#[cfg(feature = "alloc")]
use crate::formats::uefi_path::boxed::BoxedDevicePath;
use crate::formats::uefi_path::error::ByteConversionError;
use crate::formats::uefi_path::instance_iter::DevicePathInstanceIterator;
use crate::formats::uefi_path::node::DevicePathNode;
use crate::formats::uefi_path::node_iter::DevicePathNodeIterator;
use crate::formats::uefi_path::walk::{StopCondition, end_node, nodes_before_end, split_nodes};
#[cfg(feature = "alloc")]
use crate::support::alloc::AllocError;

/// A device path (UEFI 2.10, 10.2): nodes of which only the last is an end-entire node.
///
/// Its bytes are the encodings of its nodes, in order. A view: it borrows the bytes that it was
/// read from, and what it returns lives as long as they do.
///
/// # Examples
///
/// A node borrows the source bytes, and not the path or the iterator that returned it:
///
/// ```
/// use uefi_formats::proto::device_path::{ByteConversionError, DevicePath, DevicePathNode};
///
/// /// Returns the first node of the path that `bytes` start with, if a node precedes its end.
/// fn first_node(bytes: &[u8]) -> Result<Option<DevicePathNode<'_>>, ByteConversionError> {
///     let path = DevicePath::try_from(bytes)?;
///     Ok(path.node_iter().next())
/// }
///
/// let bytes = [0x02, 0x01, 6, 0, 0xaa, 0xbb, 0x7f, 0xff, 4, 0];
/// let node = first_node(&bytes)?.expect("a node before the end");
/// assert_eq!(node.data(), [0xaa, 0xbb]);
/// # Ok::<(), ByteConversionError>(())
/// ```
#[derive(Clone, Copy)]
pub struct DevicePath<'a> {
    bytes: &'a [u8],
}

impl<'a> DevicePath<'a> {
    /// Returns the path that `bytes`, which are known to be a path, encode.
    #[inline]
    pub(crate) fn new_unchecked(bytes: &'a [u8]) -> DevicePath<'a> {
        DevicePath { bytes }
    }

    /// Returns an iterator over the instances of the path, in order.
    #[must_use]
    #[inline]
    pub fn instance_iter(&self) -> DevicePathInstanceIterator<'a> {
        DevicePathInstanceIterator::new(self.bytes)
    }

    /// Returns an iterator over the nodes before the end-entire one, in order.
    #[must_use]
    #[inline]
    pub fn node_iter(&self) -> DevicePathNodeIterator<'a> {
        DevicePathNodeIterator::new(self.bytes, StopCondition::EndEntireNode)
    }

    /// Returns the bytes of the nodes before the end-entire one.
    #[must_use]
    #[inline]
    pub fn nodes(&self) -> &'a [u8] {
        nodes_before_end(self.bytes, StopCondition::EndEntireNode)
    }

    /// Returns the end-entire node, which is the last.
    #[must_use]
    #[inline]
    pub fn end_node(&self) -> DevicePathNode<'a> {
        end_node(self.bytes, StopCondition::EndEntireNode)
    }

    /// Copies the path into an allocation of its own.
    ///
    /// # Errors
    ///
    /// [`AllocError`] if an allocation fails.
    #[cfg(feature = "alloc")]
    #[inline]
    pub fn to_boxed(&self) -> Result<BoxedDevicePath, AllocError> {
        let bytes = Vec::fallible_from_slice(self.bytes)?;
        Ok(BoxedDevicePath::new_unchecked(bytes))
    }

    /// Returns all bytes of the path, including those of the end-entire node. A path of n bytes has
    /// at most n / 4 nodes.
    #[must_use]
    #[inline]
    pub fn as_bytes(&self) -> &'a [u8] {
        self.bytes
    }
}

/// Reads the path that the bytes start with, and ignores the bytes after it.
///
/// # Errors
///
/// [`ByteConversionError::InvalidLength`] if no prefix of the bytes is a path: if, before the end
/// of an end-entire node, fewer than four bytes are left, or a header states a length that is below
/// 4 or beyond the end of the bytes.
impl<'a> TryFrom<&'a [u8]> for DevicePath<'a> {
    type Error = ByteConversionError;

    #[inline]
    fn try_from(bytes: &'a [u8]) -> Result<DevicePath<'a>, ByteConversionError> {
        let (path, _) = split_nodes(bytes, StopCondition::EndEntireNode)?;
        Ok(DevicePath::new_unchecked(path))
    }
}

/// Two paths are equal if all their bytes are.
impl<'a> PartialEq for DevicePath<'a> {
    #[inline]
    fn eq(&self, other: &Self) -> bool {
        self.as_bytes() == other.as_bytes()
    }
}

impl<'a> Eq for DevicePath<'a> {}
