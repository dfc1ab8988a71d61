// @generated from proved source. It is not edited.

use crate::formats::uefi_c::path::UefiNode;
use crate::formats::uefi_c::status::{self, UefiStatus};
use crate::formats::uefi_base::buffer::put;
use crate::formats::uefi_path::{DevicePathHeader, DeviceSubType, DeviceType};

/// The length of a node's header.
const HEADER_LENGTH: usize = 4;

/// The most bytes that a node has: its length has to fit two.
const MOST_BYTES: usize = 0xffff;

/// Returns whether the node has this type and subtype.
#[inline]
pub(crate) fn is_of(node: &UefiNode<'_>, device_type: DeviceType, sub_type: DeviceSubType) -> bool {
    node.device_type == device_type.0 && node.sub_type == sub_type.0
}

/// Returns the data of the node if it has this type and subtype, and data of `N` bytes.
#[inline]
pub(crate) fn fields_of<'a, const N: usize>(
    node: &UefiNode<'_>,
    node_data: &'a [u8],
    device_type: DeviceType,
    sub_type: DeviceSubType,
) -> Option<&'a [u8; N]> {
    if !is_of(node, device_type, sub_type) {
        return None;
    }
    let (fields, rest) = node_data.split_first_chunk()?;
    if !rest.is_empty() {
        return None;
    }
    Some(fields)
}

/// Returns the bytes at `offset`.
#[inline]
pub(crate) fn bytes_at<const N: usize>(bytes: &[u8], offset: usize) -> [u8; N] {
    let mut part = [0; N];
    part.copy_from_slice(&bytes[offset..offset + N]);
    part
}

/// Returns the bytes of the parts, one after another, which are `N` together.
#[inline]
pub(crate) fn joined<const N: usize>(parts: &[&[u8]]) -> [u8; N] {
    let mut bytes = [0; N];
    let mut end = 0;
    for part in parts {
        put(&mut bytes, end, part);
        end += part.len();
    }
    bytes
}

/// Writes the node with this type and subtype, whose data are the fields and then the rest, to the
/// beginning of the buffer. Returns the status, and the length of the node that was written or that
/// the buffer needs, or 0 if the node would have more than 65535 bytes.
///
/// All bytes stay as they were unless the status is success.
#[inline]
pub(crate) fn write_parts(
    buffer: &mut [u8],
    device_type: DeviceType,
    sub_type: DeviceSubType,
    fields: &[u8],
    rest: &[u8],
) -> (UefiStatus, usize) {
    let Some(length) = node_length(fields, rest) else {
        return (status::TOO_LONG, 0);
    };
    if buffer.len() < length {
        return (status::BUFFER_TOO_SMALL, length);
    }
    let header = DevicePathHeader::new(device_type, sub_type, length as u16);
    put_parts(buffer, header.to_bytes(), fields, rest);
    (status::OK, length)
}

/// Returns the length of a node with these data in bytes, or `None` if two bytes don't have it.
#[inline]
fn node_length(fields: &[u8], rest: &[u8]) -> Option<usize> {
    let room = MOST_BYTES - HEADER_LENGTH;
    if fields.len() > room || rest.len() > room - fields.len() {
        return None;
    }
    Some(HEADER_LENGTH + fields.len() + rest.len())
}

/// Puts a header and the data after it to the beginning of a buffer that has room for them.
#[inline]
fn put_parts(buffer: &mut [u8], header: [u8; 4], fields: &[u8], rest: &[u8]) {
    put(buffer, 0, &header);
    put(buffer, HEADER_LENGTH, fields);
    put(buffer, HEADER_LENGTH + fields.len(), rest);
}
