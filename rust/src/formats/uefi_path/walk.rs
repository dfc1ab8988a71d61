// @generated from proved source. It is not edited.

use crate::formats::uefi_path::device_type::DeviceType;
use crate::formats::uefi_path::error::ByteConversionError;
use crate::formats::uefi_path::header::{HEADER_LENGTH, LENGTH_OFFSET};
use crate::formats::uefi_path::node::DevicePathNode;
use crate::formats::uefi_base::little_endian::u16_at;

/// The node at which a walk over nodes stops.
#[derive(Clone, Copy, Debug)]
pub(crate) enum StopCondition {
    /// Any node of the type END, which ends an instance.
    AnyEndNode,
    /// The end-entire node, which ends the path.
    EndEntireNode,
}

impl StopCondition {
    /// Returns whether the walk stops at the node.
    #[inline]
    pub(crate) fn stops_at(self, node: &DevicePathNode<'_>) -> bool {
        match self {
            StopCondition::AnyEndNode => node.device_type() == DeviceType::END,
            StopCondition::EndEntireNode => node.is_end_entire(),
        }
    }
}

/// Returns the node that the bytes start with, and the bytes after it; or `InvalidLength` if no
/// prefix of the bytes is a node.
#[inline]
pub(crate) fn split_node(bytes: &[u8]) -> Result<(DevicePathNode<'_>, &[u8]), ByteConversionError> {
    if bytes.len() < HEADER_LENGTH {
        return Err(ByteConversionError::InvalidLength);
    }
    let length = usize::from(u16_at(bytes, LENGTH_OFFSET));
    if length < HEADER_LENGTH || bytes.len() < length {
        return Err(ByteConversionError::InvalidLength);
    }
    let (node, after) = bytes.split_at(length);
    Ok((DevicePathNode::new_unchecked(node), after))
}

/// Returns the node that the bytes are known to start with, and the bytes after it, without a test.
#[inline]
pub(crate) fn first_node(bytes: &[u8]) -> (DevicePathNode<'_>, &[u8]) {
    let length = usize::from(u16_at(bytes, LENGTH_OFFSET));
    let (node, after) = bytes.split_at(length);
    (DevicePathNode::new_unchecked(node), after)
}

/// Returns the bytes of the nodes up to the first at which the walk stops, and those after them; or
/// `InvalidLength` if no prefix of the bytes is such nodes.
#[inline]
pub(crate) fn split_nodes(
    bytes: &[u8],
    stop: StopCondition,
) -> Result<(&[u8], &[u8]), ByteConversionError> {
    let mut rest = bytes;
    loop {
        let (node, after) = split_node(rest)?;
        rest = after;
        if stop.stops_at(&node) {
            return bytes
                .split_at_checked(bytes.len() - rest.len())
                .ok_or(ByteConversionError::InvalidLength);
        }
    }
}

/// Returns the bytes of the nodes before the one at which the walk stops, of bytes that are known
/// to be such nodes.
#[inline]
pub(crate) fn nodes_before_end(bytes: &[u8], stop: StopCondition) -> &[u8] {
    let mut rest = bytes;
    loop {
        let (node, after) = first_node(rest);
        if stop.stops_at(&node) {
            let (before, _) = bytes.split_at(bytes.len() - rest.len());
            return before;
        }
        rest = after;
    }
}

/// Returns the node at which the walk stops, of bytes that are known to be such nodes.
#[inline]
pub(crate) fn end_node(bytes: &[u8], stop: StopCondition) -> DevicePathNode<'_> {
    let mut rest = bytes;
    loop {
        let (node, after) = first_node(rest);
        if stop.stops_at(&node) {
            return node;
        }
        rest = after;
    }
}
