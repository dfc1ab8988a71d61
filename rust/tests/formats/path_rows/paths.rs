// @generated from proved source. It is not edited.

use crate::support::fallible::*;

use crate::rows::{hex_digits, quoted};
use crate::support::alloc::AllocError;
use crate::test_support::bytes;
use crate::uefi_path::{
    ByteConversionError, DevicePath, DevicePathInstance, DevicePathNode, DevicePathNodeIterator,
};

/// Returns whether bytes are those of the instances of a path, one instance after another.
fn is_joined(path: &DevicePath<'_>) -> bool {
    let mut rest = path.as_bytes();
    for instance in path.instance_iter() {
        let Some(after) = rest.strip_prefix(instance.as_bytes()) else {
            return false;
        };
        rest = after;
    }
    rest.is_empty()
}

/// Returns the length of the path that the bytes begin with, how many nodes and instances its
/// iterators count, and whether its bytes are the first ones and those of its instances.
pub(crate) fn path(input: &[u8]) -> Result<([usize; 3], [bool; 2]), ByteConversionError> {
    let path = DevicePath::try_from(input)?;
    let bytes = path.as_bytes();
    let counts = [
        bytes.len(),
        path.node_iter().count(),
        path.instance_iter().count(),
    ];
    Ok((counts, [input.starts_with(bytes), is_joined(&path)]))
}

/// Returns the length of the shortest prefix that is a path.
pub(crate) fn first_path(input: &[u8]) -> Option<usize> {
    (0..=input.len()).find(|length| {
        let (prefix, _) = input.split_at(*length);
        DevicePath::try_from(prefix).is_ok()
    })
}

/// Appends what a step of an iterator of nodes gives.
fn push_node(seen: &mut Vec<u8>, node: Option<DevicePathNode<'_>>) -> Result<(), AllocError> {
    let Some(node) = node else {
        return seen.fallible_extend_from_slice(&[0]);
    };
    let (device_type, sub_type) = node.full_type();
    let [low, high] = node.length().to_le_bytes();
    seen.fallible_extend_from_slice(&[device_type.0, sub_type.0, low, high])?;
    seen.fallible_extend_from_slice(node.data())
}

/// Appends all nodes, and twice what the iterator gives after the last.
fn push_nodes(seen: &mut Vec<u8>, nodes: DevicePathNodeIterator<'_>) -> Result<(), AllocError> {
    let mut left = nodes;
    for _ in nodes {
        push_node(seen, left.next())?;
    }
    push_node(seen, left.next())?;
    push_node(seen, left.next())
}

/// Appends what a step of an iterator of instances gives.
fn push_instance(
    seen: &mut Vec<u8>,
    instance: Option<DevicePathInstance<'_>>,
) -> Result<(), AllocError> {
    let Some(instance) = instance else {
        return seen.fallible_extend_from_slice(&[0]);
    };
    let length = u8::try_from(instance.as_bytes().len()).unwrap_or(0);
    seen.fallible_extend_from_slice(&[length])?;
    push_nodes(seen, instance.node_iter())
}

/// Appends all instances, and twice what the iterator gives after the last.
fn push_instances(seen: &mut Vec<u8>, path: &DevicePath<'_>) -> Result<(), AllocError> {
    let mut left = path.instance_iter();
    for _ in path.instance_iter() {
        push_instance(seen, left.next())?;
    }
    push_instance(seen, left.next())?;
    push_instance(seen, left.next())
}

/// Returns what the iterators of a path give: all its nodes, then each instance, as its length and
/// all its nodes. A node is its type, its subtype, its length and its data, and `00` is where an
/// iterator gives nothing, for which each is asked twice.
pub(crate) fn path_parts(input: &str) -> Option<String> {
    let input = bytes(input).ok()?;
    let path = DevicePath::try_from(input.as_slice()).ok()?;
    let mut seen = Vec::new();
    push_nodes(&mut seen, path.node_iter()).ok()?;
    push_instances(&mut seen, &path).ok()?;
    hex_digits(seen.as_slice()).ok()
}

/// Returns the bytes of a path before its end node.
pub(crate) fn path_nodes(input: &str) -> Option<String> {
    let input = bytes(input).ok()?;
    let path = DevicePath::try_from(input.as_slice()).ok()?;
    hex_digits(path.nodes()).ok()
}

/// Returns what the path that the bytes begin with is displayed as.
pub(crate) fn path_text(input: &str) -> Option<String> {
    let input = bytes(input).ok()?;
    let path = DevicePath::try_from(input.as_slice()).ok()?;
    let text = fallible_format!("{path}").ok()?;
    quoted(text.as_str()).ok()
}

/// Returns what the error of bytes that begin with no path is displayed as.
pub(crate) fn path_error(input: &str) -> Option<String> {
    let input = bytes(input).ok()?;
    let error = DevicePath::try_from(input.as_slice()).err()?;
    let text = fallible_format!("{error}").ok()?;
    quoted(text.as_str()).ok()
}
