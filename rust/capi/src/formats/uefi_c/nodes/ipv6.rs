// @generated from proved source. It is not edited.

use core::mem::MaybeUninit;
use crate::bytes::Buffer;

use crate::formats::uefi_c::nodes::typed::{bytes_at, fields_of, joined, write_parts};
use crate::formats::uefi_c::path::UefiNode;
use crate::formats::uefi_c::status::{self, UefiStatus};
use crate::formats::uefi_base::little_endian::u16_at;
use crate::formats::uefi_path::{DeviceSubType, DeviceType};

/// An IPv6 connection (UEFI 2.10, 10.3.4.13).
#[derive(Clone, Copy, Debug)]
#[repr(C)]
pub struct UefiIpv6Node {
    /// The local address.
    pub local_ip_address: [u8; 16],
    /// The remote address.
    pub remote_ip_address: [u8; 16],
    /// The local port.
    pub local_port: u16,
    /// The remote port.
    pub remote_port: u16,
    /// The network protocol, a number of RFC 3232.
    pub protocol: u16,
    /// Where the local address comes from: 0 if it is set by hand, 1 for stateless and 2 for
    /// stateful configuration.
    pub ip_address_origin: u8,
    /// The length of the prefix of the local address, in bits.
    pub prefix_length: u8,
    /// The address of the gateway.
    pub gateway_ip_address: [u8; 16],
}

/// Reads the fields of the node of an IPv6 connection.
///
/// If it has another type or subtype, or its data have another length, the status is that the data
/// are another structure, and `out` stays as it was.
#[unsafe(no_mangle)]
pub extern "C" fn uefi_ipv6_node(node: &UefiNode<'_>, out: &mut MaybeUninit<UefiIpv6Node>) -> UefiStatus {
    let node_data = node.data.as_slice();
    let Some(fields) = fields_of::<56>(
        node,
        node_data,
        DeviceType::MESSAGING,
        DeviceSubType::MESSAGING_IPV6,
    ) else {
        return status::OTHER_DATA;
    };
    out.write(UefiIpv6Node {
        local_ip_address: bytes_at(fields, 0),
        remote_ip_address: bytes_at(fields, 16),
        local_port: u16_at(fields, 32),
        remote_port: u16_at(fields, 34),
        protocol: u16_at(fields, 36),
        ip_address_origin: fields[38],
        prefix_length: fields[39],
        gateway_ip_address: bytes_at(fields, 40),
    });
    status::OK
}

/// Writes the node of an IPv6 connection to the beginning of the buffer, and sets `size` to its
/// length; the bytes after it stay as they were.
///
/// If the buffer is too small, all bytes stay as they were, and `size` is the length that it needs.
#[unsafe(no_mangle)]
pub extern "C" fn uefi_write_ipv6_node(
    buffer: Buffer<'_>,
    node: &UefiIpv6Node,
    size: &mut MaybeUninit<usize>,
) -> UefiStatus {
    let buffer = buffer.into_slice();
    let fields = joined::<56>(&[
        &node.local_ip_address,
        &node.remote_ip_address,
        &node.local_port.to_le_bytes(),
        &node.remote_port.to_le_bytes(),
        &node.protocol.to_le_bytes(),
        &node.ip_address_origin.to_le_bytes(),
        &node.prefix_length.to_le_bytes(),
        &node.gateway_ip_address,
    ]);
    let (status, length) = write_parts(
        buffer,
        DeviceType::MESSAGING,
        DeviceSubType::MESSAGING_IPV6,
        &fields,
        &[],
    );
    size.write(length);
    status
}
