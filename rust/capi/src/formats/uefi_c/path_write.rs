// @generated from proved source. It is not edited.

use core::mem::MaybeUninit;
use crate::bytes::{Buffer, Bytes};

use crate::formats::uefi_c::path::UefiNode;
use crate::formats::uefi_c::status::{self, UefiStatus};
use crate::formats::uefi_base::buffer::put;
use crate::formats::uefi_path::{DevicePath, DevicePathHeader, DeviceSubType, DeviceType};

/// The length of a node's header.
const HEADER_LENGTH: usize = 4;

/// The most bytes that a node has: its length has to fit two.
const MOST_BYTES: usize = 0xffff;

/// Writes a node to the beginning of the buffer, and sets `size` to its length; the bytes after it
/// stay as they were.
///
/// If it returns another status than success, all bytes stay as they were, and `size` is the length
/// that the buffer needs, or 0 if the node would have more than 65535 bytes.
#[unsafe(no_mangle)]
pub extern "C" fn uefi_write_node(
    buffer: Buffer<'_>,
    node: &UefiNode<'_>,
    size: &mut MaybeUninit<usize>,
) -> UefiStatus {
    let buffer = buffer.into_slice();
    size.write(0);
    let node_data = node.data.as_slice();
    let Some(length) = node_length(node_data) else {
        return status::TOO_LONG;
    };
    size.write(length);
    if buffer.len() < length {
        return status::BUFFER_TOO_SMALL;
    }
    put_node(buffer, 0, node, node_data);
    status::OK
}

/// Writes the path that `path` begins with to the beginning of the buffer, with the node before its
/// end (UEFI 2.10, 10.5.2 `AppendDeviceNode`), and sets `size` to the length of all. Its end-entire
/// node has no data.
///
/// If it returns another status than success, all bytes stay as they were, and `size` is the length
/// that the buffer needs, or 0 if `path` begins with no path, or the node is an end-entire node or
/// would have more than 65535 bytes.
#[unsafe(no_mangle)]
pub extern "C" fn uefi_path_append_node(
    buffer: Buffer<'_>,
    path: Bytes<'_>,
    node: &UefiNode<'_>,
    size: &mut MaybeUninit<usize>,
) -> UefiStatus {
    let buffer = buffer.into_slice();
    let path = path.as_slice();
    size.write(0);
    let Ok(path) = DevicePath::try_from(path) else {
        return status::NO_PATH;
    };
    if is_end_entire(node) {
        return status::ENDS_PATH;
    }
    let node_data = node.data.as_slice();
    let Some(length) = node_length(node_data) else {
        return status::TOO_LONG;
    };
    let nodes = path.nodes();
    let end = nodes.len() + length;
    let needed = end + HEADER_LENGTH;
    size.write(needed);
    if buffer.len() < needed {
        return status::BUFFER_TOO_SMALL;
    }
    put(buffer, 0, nodes);
    put_node(buffer, nodes.len(), node, node_data);
    put_end(buffer, end);
    status::OK
}

/// Writes the path that `path` begins with to the beginning of the buffer, with the nodes of the path
/// that `other` begins with in the place of its end (UEFI 2.10, 10.5.2 `AppendDevicePath`), and sets
/// `size` to the length of all.
///
/// If it returns another status than success, all bytes stay as they were, and `size` is the length
/// that the buffer needs, or 0 if one of the two begins with no path.
#[unsafe(no_mangle)]
pub extern "C" fn uefi_path_append(
    buffer: Buffer<'_>,
    path: Bytes<'_>,
    other: Bytes<'_>,
    size: &mut MaybeUninit<usize>,
) -> UefiStatus {
    let buffer = buffer.into_slice();
    let path = path.as_slice();
    let other = other.as_slice();
    size.write(0);
    let Ok(path) = DevicePath::try_from(path) else {
        return status::NO_PATH;
    };
    let Ok(other) = DevicePath::try_from(other) else {
        return status::NO_PATH;
    };
    let (nodes, others) = (path.nodes(), other.as_bytes());
    let needed = nodes.len() + others.len();
    size.write(needed);
    if buffer.len() < needed {
        return status::BUFFER_TOO_SMALL;
    }
    put(buffer, 0, nodes);
    put(buffer, nodes.len(), others);
    status::OK
}

/// Returns the length of a node with these data in bytes, or `None` if two bytes don't have it.
#[inline]
fn node_length(node_data: &[u8]) -> Option<usize> {
    let length = HEADER_LENGTH.checked_add(node_data.len())?;
    if length > MOST_BYTES {
        return None;
    }
    Some(length)
}

/// Writes a node, which has these data, at the offset.
#[inline]
fn put_node(buffer: &mut [u8], offset: usize, node: &UefiNode<'_>, node_data: &[u8]) {
    let (device_type, sub_type) = (DeviceType(node.device_type), DeviceSubType(node.sub_type));
    let length = HEADER_LENGTH + node_data.len();
    put(
        buffer,
        offset,
        &DevicePathHeader::new(device_type, sub_type, length as u16).to_bytes(),
    );
    put(buffer, offset + HEADER_LENGTH, node_data);
}

/// Writes the end-entire node without data at the offset.
#[inline]
fn put_end(buffer: &mut [u8], offset: usize) {
    let end = DevicePathHeader::new(DeviceType::END, DeviceSubType::END_ENTIRE, 4);
    put(buffer, offset, &end.to_bytes());
}

/// Returns whether the node is an end-entire node.
#[inline]
fn is_end_entire(node: &UefiNode<'_>) -> bool {
    node.device_type == DeviceType::END.0 && node.sub_type == DeviceSubType::END_ENTIRE.0
}
