// @generated from proved source. It is not edited.

use core::mem::MaybeUninit;
use crate::bytes::{Buffer, Bytes};

use crate::formats::uefi_c::nodes::typed::{is_of, write_parts};
use crate::formats::uefi_c::path::UefiNode;
use crate::formats::uefi_c::status::{self, UefiStatus};
use crate::formats::uefi_path::{DeviceSubType, DeviceType};

/// A URI (UEFI 2.10, 10.3.4.23).
#[derive(Clone, Copy, Debug)]
#[repr(C)]
pub struct UefiUriNode<'a> {
    /// The URI (RFC 3986). It may be any bytes, also none.
    pub uri: Bytes<'a>,
}

/// Reads the URI that the data of a node are.
///
/// If the node has another type or subtype, the status is that the data are another structure, and
/// `out` stays as it was.
#[unsafe(no_mangle)]
pub extern "C" fn uefi_uri_node<'a>(node: &UefiNode<'a>, out: &mut MaybeUninit<UefiUriNode<'a>>) -> UefiStatus {
    if !is_of(node, DeviceType::MESSAGING, DeviceSubType::MESSAGING_URI) {
        return status::OTHER_DATA;
    }
    out.write(UefiUriNode { uri: Bytes::new(node.data.as_slice()) });
    status::OK
}

/// Writes the node of a URI to the beginning of the buffer, and sets `size` to its length; the
/// bytes after it stay as they were.
///
/// If it returns another status than success, all bytes stay as they were, and `size` is the length
/// that the buffer needs, or 0 if the node would have more than 65535 bytes.
#[unsafe(no_mangle)]
pub extern "C" fn uefi_write_uri_node(
    buffer: Buffer<'_>,
    node: &UefiUriNode<'_>,
    size: &mut MaybeUninit<usize>,
) -> UefiStatus {
    let buffer = buffer.into_slice();
    let uri = node.uri.as_slice();
    let (status, length) = write_parts(
        buffer,
        DeviceType::MESSAGING,
        DeviceSubType::MESSAGING_URI,
        &[],
        uri,
    );
    size.write(length);
    status
}
