// @generated from proved source. It is not edited.

use crate::formats::uefi_node::error::NodeConversionError;
use crate::formats::uefi_node::read::{NodeKind, NodeValue, RestKind, bytes_at, read_node};
use crate::formats::uefi_node::write::{Tail, joined, write_node};
use crate::formats::uefi_base::little_endian::u16_at;
use crate::formats::uefi_path::build::{BuildError, BuildNode};
use crate::formats::uefi_path::{DevicePathNode, DeviceSubType, DeviceType};

/// An IPv4 connection (UEFI 2.10, 10.3.4.12).
///
/// | offset | bytes | field |
/// |---|---|---|
/// | 4 | 4 | `local_ip_address` |
/// | 8 | 4 | `remote_ip_address` |
/// | 12 | 2 | `local_port` |
/// | 14 | 2 | `remote_port` |
/// | 16 | 2 | `protocol` |
/// | 18 | 1 | `ip_address_origin` |
/// | 19 | 4 | `gateway_ip_address` |
/// | 23 | 4 | `subnet_mask` |
///
/// Offsets are from the start of the node. Numbers are little-endian.
#[derive(Clone, Copy, PartialEq, Eq)]
pub struct Ipv4 {
    /// The local address.
    pub local_ip_address: [u8; 4],
    /// The remote address.
    pub remote_ip_address: [u8; 4],
    /// The local port.
    pub local_port: u16,
    /// The remote port.
    pub remote_port: u16,
    /// The network protocol, a number of RFC 3232.
    pub protocol: u16,
    /// Where the local address comes from.
    pub ip_address_origin: Ipv4AddressOrigin,
    /// The address of the gateway.
    pub gateway_ip_address: [u8; 4],
    /// The mask of the subnet.
    pub subnet_mask: [u8; 4],
}

impl core::fmt::Debug for Ipv4 {
    fn fmt(&self, f: &mut core::fmt::Formatter<'_>) -> core::fmt::Result {
        f.debug_struct("Ipv4")
            .field("local_ip_address", &crate::support::debug::Bytes(&self.local_ip_address))
            .field("remote_ip_address", &crate::support::debug::Bytes(&self.remote_ip_address))
            .field("local_port", &self.local_port)
            .field("remote_port", &self.remote_port)
            .field("protocol", &self.protocol)
            .field("ip_address_origin", &self.ip_address_origin)
            .field("gateway_ip_address", &crate::support::debug::Bytes(&self.gateway_ip_address))
            .field("subnet_mask", &crate::support::debug::Bytes(&self.subnet_mask))
            .finish()
    }
}

/// The type of the nodes, and how long their data are.
const KIND: NodeKind = NodeKind {
    full_type: (DeviceType::MESSAGING, DeviceSubType::MESSAGING_IPV4),
    size: 23,
    rest: RestKind::Nothing,
};

impl<'a> TryFrom<DevicePathNode<'a>> for Ipv4 {
    type Error = NodeConversionError;

    #[inline]
    fn try_from(node: DevicePathNode<'a>) -> Result<Ipv4, NodeConversionError> {
        read_node(&node, KIND)
    }
}

impl<'a> NodeValue<'a> for Ipv4 {
    #[inline]
    fn from_data(data: &'a [u8]) -> Option<Ipv4> {
        Some(Ipv4 {
            local_ip_address: bytes_at(data, 0),
            remote_ip_address: bytes_at(data, 4),
            local_port: u16_at(data, 8),
            remote_port: u16_at(data, 10),
            protocol: u16_at(data, 12),
            ip_address_origin: Ipv4AddressOrigin(data[14]),
            gateway_ip_address: bytes_at(data, 15),
            subnet_mask: bytes_at(data, 19),
        })
    }
}

impl BuildNode for Ipv4 {
    #[inline]
    fn full_type(&self) -> (DeviceType, DeviceSubType) {
        KIND.full_type
    }

    #[inline]
    fn write(&self, buffer: &mut [u8]) -> Result<usize, BuildError> {
        let fields = joined::<23>(&[
            &self.local_ip_address,
            &self.remote_ip_address,
            &self.local_port.to_le_bytes(),
            &self.remote_port.to_le_bytes(),
            &self.protocol.to_le_bytes(),
            &self.ip_address_origin.0.to_le_bytes(),
            &self.gateway_ip_address,
            &self.subnet_mask,
        ]);
        write_node(buffer, KIND, self, &fields, Tail::Bytes(&[]))
    }
}

/// Where the local IPv4 address comes from (UEFI 2.10, 10.3.4.12).
///
/// Numbers without a constant here are valid too.
#[derive(Clone, Copy, PartialEq, Eq, PartialOrd, Ord, Hash, Debug)]
#[repr(transparent)]
pub struct Ipv4AddressOrigin(pub u8);

impl Ipv4AddressOrigin {
    /// DHCP.
    pub const DHCP: Ipv4AddressOrigin = Ipv4AddressOrigin(0);

    /// It is set by hand.
    pub const STATIC: Ipv4AddressOrigin = Ipv4AddressOrigin(1);
}
