// @generated from proved source. It is not edited.

use crate::formats::uefi_node::error::NodeConversionError;
use crate::formats::uefi_path::{DevicePathNode, DeviceSubType, DeviceType};

/// A type of nodes, and how long its data are.
#[derive(Clone, Copy, Debug)]
pub(crate) struct NodeKind {
    /// The type and the subtype.
    pub(crate) full_type: (DeviceType, DeviceSubType),
    /// How many bytes the fields have.
    pub(crate) size: usize,
    /// What follows them.
    pub(crate) rest: RestKind,
}

impl NodeKind {
    /// Returns whether a node has the type and the subtype.
    #[inline]
    fn is_of(&self, node: &DevicePathNode<'_>) -> bool {
        node.full_type() == self.full_type
    }

    /// Returns whether data of this length are fields and such a rest.
    #[inline]
    fn has_length(&self, length: usize) -> bool {
        if length < self.size {
            return false;
        }
        let after = length - self.size;
        match self.rest {
            RestKind::Nothing => after == 0,
            RestKind::Bytes => true,
            RestKind::Units => after % 2 == 0,
            RestKind::Numbers => after >= 4 && after % 4 == 0,
            RestKind::Addresses => after % 16 == 0,
        }
    }
}

/// What follows the fields of a node.
#[derive(Clone, Copy, Debug)]
pub(crate) enum RestKind {
    /// Nothing.
    Nothing,
    /// Any bytes.
    Bytes,
    /// Units of 16 bits.
    Units,
    /// One or more numbers of four bytes.
    Numbers,
    /// Addresses of 16 bytes.
    Addresses,
}

/// A value that the data of a node are.
pub(crate) trait NodeValue<'a>: Sized {
    /// Returns the value that data of the type's length have, or `None` if they haven't its form.
    fn from_data(data: &'a [u8]) -> Option<Self>;
}

/// Returns the value that a node is, or why it is none.
#[inline]
pub(crate) fn read_node<'a, T: NodeValue<'a>>(
    node: &DevicePathNode<'a>,
    kind: NodeKind,
) -> Result<T, NodeConversionError> {
    let data = node.data();
    if !kind.is_of(node) {
        return Err(NodeConversionError::DifferentType);
    }
    if !kind.has_length(data.len()) {
        return Err(NodeConversionError::Length);
    }
    match T::from_data(data) {
        Some(value) => Ok(value),
        None => Err(NodeConversionError::Form),
    }
}

/// Returns the bytes at `offset`.
#[inline]
pub(crate) fn bytes_at<const N: usize>(bytes: &[u8], offset: usize) -> [u8; N] {
    let mut part = [0; N];
    part.copy_from_slice(&bytes[offset..offset + N]);
    part
}
