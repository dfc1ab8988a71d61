// @generated from proved source. It is not edited.

#[cfg(feature = "alloc")]
use alloc::vec::Vec;
#[cfg(feature = "alloc")]
use crate::support::fallible::*;

#[cfg(feature = "alloc")]
use crate::formats::uefi_path::boxed::BoxedDevicePathInstance;
use crate::formats::uefi_path::node::DevicePathNode;
use crate::formats::uefi_path::node_iter::DevicePathNodeIterator;
#[cfg(feature = "alloc")]
use crate::formats::uefi_path::walk::nodes_before_end;
use crate::formats::uefi_path::walk::{StopCondition, end_node};
#[cfg(feature = "alloc")]
use crate::support::alloc::AllocError;

/// One instance of a device path (UEFI 2.10, 10.2): nodes of which only the last has the type END.
///
/// Its bytes are the encodings of its nodes, in order. A view: it borrows the bytes of the path,
/// and what it returns lives as long as they do.
#[derive(Clone, Copy)]
pub struct DevicePathInstance<'a> {
    bytes: &'a [u8],
}

impl<'a> DevicePathInstance<'a> {
    /// Returns the instance that `bytes`, which are known to be an instance, encode.
    #[inline]
    pub(crate) fn new_unchecked(bytes: &'a [u8]) -> DevicePathInstance<'a> {
        DevicePathInstance { bytes }
    }

    /// Returns an iterator over the nodes before the one with the type END, in order.
    #[must_use]
    #[inline]
    pub fn node_iter(&self) -> DevicePathNodeIterator<'a> {
        DevicePathNodeIterator::new(self.bytes, StopCondition::AnyEndNode)
    }

    /// Returns the bytes of the nodes before the one with the type END.
    #[cfg(feature = "alloc")]
    #[inline]
    pub(crate) fn nodes(&self) -> &'a [u8] {
        nodes_before_end(self.bytes, StopCondition::AnyEndNode)
    }

    /// Returns the node with the type END, which is the last.
    #[must_use]
    #[inline]
    pub fn end_node(&self) -> DevicePathNode<'a> {
        end_node(self.bytes, StopCondition::AnyEndNode)
    }

    /// Copies the instance into an allocation of its own.
    ///
    /// # Errors
    ///
    /// [`AllocError`] if an allocation fails.
    #[cfg(feature = "alloc")]
    #[inline]
    pub fn to_boxed(&self) -> Result<BoxedDevicePathInstance, AllocError> {
        let bytes = Vec::fallible_from_slice(self.bytes)?;
        Ok(BoxedDevicePathInstance::new_unchecked(bytes))
    }

    /// Returns all bytes of the instance, including those of its last node.
    #[must_use]
    #[inline]
    pub fn as_bytes(&self) -> &'a [u8] {
        self.bytes
    }
}

/// Two instances are equal if all their bytes are.
impl<'a> PartialEq for DevicePathInstance<'a> {
    #[inline]
    fn eq(&self, other: &Self) -> bool {
        self.as_bytes() == other.as_bytes()
    }
}

impl<'a> Eq for DevicePathInstance<'a> {}
