// @generated from proved source. It is not edited.

use core::mem::MaybeUninit;
use crate::bytes::Buffer;

use crate::formats::uefi_c::nodes::typed::{bytes_at, fields_of, joined, write_parts};
use crate::formats::uefi_c::path::UefiNode;
use crate::formats::uefi_c::status::{self, UefiStatus};
use crate::formats::uefi_path::{DeviceSubType, DeviceType};

/// The address of a network interface (UEFI 2.10, 10.3.4.11).
#[derive(Clone, Copy, Debug)]
#[repr(C)]
pub struct UefiMacNode {
    /// The address, with zeros after it.
    pub mac_address: [u8; 32],
    /// The type of the interface, a number of RFC 3232.
    pub interface_type: u8,
}

/// Reads the fields of the node of a network interface.
///
/// If it has another type or subtype, or its data have another length, the status is that the data
/// are another structure, and `out` stays as it was.
#[unsafe(no_mangle)]
pub extern "C" fn uefi_mac_node(node: &UefiNode<'_>, out: &mut MaybeUninit<UefiMacNode>) -> UefiStatus {
    let node_data = node.data.as_slice();
    let Some(fields) = fields_of::<33>(
        node,
        node_data,
        DeviceType::MESSAGING,
        DeviceSubType::MESSAGING_MAC_ADDRESS,
    ) else {
        return status::OTHER_DATA;
    };
    out.write(UefiMacNode {
        mac_address: bytes_at(fields, 0),
        interface_type: fields[32],
    });
    status::OK
}

/// Writes the node of a network interface to the beginning of the buffer, and sets `size` to its
/// length; the bytes after it stay as they were.
///
/// If the buffer is too small, all bytes stay as they were, and `size` is the length that it needs.
#[unsafe(no_mangle)]
pub extern "C" fn uefi_write_mac_node(
    buffer: Buffer<'_>,
    node: &UefiMacNode,
    size: &mut MaybeUninit<usize>,
) -> UefiStatus {
    let buffer = buffer.into_slice();
    let fields = joined::<33>(&[&node.mac_address, &node.interface_type.to_le_bytes()]);
    let (status, length) = write_parts(
        buffer,
        DeviceType::MESSAGING,
        DeviceSubType::MESSAGING_MAC_ADDRESS,
        &fields,
        &[],
    );
    size.write(length);
    status
}
