// @generated from proved source. It is not edited.

use crate::formats::uefi_node::error::NodeConversionError;
use crate::formats::uefi_node::read::{NodeKind, NodeValue, RestKind, bytes_at, read_node};
use crate::formats::uefi_node::write::{Tail, joined, write_node};
use crate::formats::uefi_base::little_endian::u16_at;
use crate::formats::uefi_path::build::{BuildError, BuildNode};
use crate::formats::uefi_path::{DevicePathNode, DeviceSubType, DeviceType};

/// An IPv6 connection (UEFI 2.10, 10.3.4.13).
///
/// | offset | bytes | field |
/// |---|---|---|
/// | 4 | 16 | `local_ip_address` |
/// | 20 | 16 | `remote_ip_address` |
/// | 36 | 2 | `local_port` |
/// | 38 | 2 | `remote_port` |
/// | 40 | 2 | `protocol` |
/// | 42 | 1 | `ip_address_origin` |
/// | 43 | 1 | `prefix_length` |
/// | 44 | 16 | `gateway_ip_address` |
///
/// Offsets are from the start of the node. Numbers are little-endian.
#[derive(Clone, Copy, PartialEq, Eq)]
pub struct Ipv6 {
    /// The local address.
    pub local_ip_address: [u8; 16],
    /// The remote address.
    pub remote_ip_address: [u8; 16],
    /// The local port.
    pub local_port: u16,
    /// The remote port.
    pub remote_port: u16,
    /// The network protocol, a number of RFC 3232.
    pub protocol: u16,
    /// Where the local address comes from.
    pub ip_address_origin: Ipv6AddressOrigin,
    /// The length of the prefix of the local address, in bits.
    pub prefix_length: u8,
    /// The address of the gateway.
    pub gateway_ip_address: [u8; 16],
}

impl core::fmt::Debug for Ipv6 {
    fn fmt(&self, f: &mut core::fmt::Formatter<'_>) -> core::fmt::Result {
        f.debug_struct("Ipv6")
            .field("local_ip_address", &crate::support::debug::Bytes(&self.local_ip_address))
            .field("remote_ip_address", &crate::support::debug::Bytes(&self.remote_ip_address))
            .field("local_port", &self.local_port)
            .field("remote_port", &self.remote_port)
            .field("protocol", &self.protocol)
            .field("ip_address_origin", &self.ip_address_origin)
            .field("prefix_length", &self.prefix_length)
            .field("gateway_ip_address", &crate::support::debug::Bytes(&self.gateway_ip_address))
            .finish()
    }
}

/// The type of the nodes, and how long their data are.
const KIND: NodeKind = NodeKind {
    full_type: (DeviceType::MESSAGING, DeviceSubType::MESSAGING_IPV6),
    size: 56,
    rest: RestKind::Nothing,
};

impl<'a> TryFrom<DevicePathNode<'a>> for Ipv6 {
    type Error = NodeConversionError;

    #[inline]
    fn try_from(node: DevicePathNode<'a>) -> Result<Ipv6, NodeConversionError> {
        read_node(&node, KIND)
    }
}

impl<'a> NodeValue<'a> for Ipv6 {
    #[inline]
    fn from_data(data: &'a [u8]) -> Option<Ipv6> {
        Some(Ipv6 {
            local_ip_address: bytes_at(data, 0),
            remote_ip_address: bytes_at(data, 16),
            local_port: u16_at(data, 32),
            remote_port: u16_at(data, 34),
            protocol: u16_at(data, 36),
            ip_address_origin: Ipv6AddressOrigin(data[38]),
            prefix_length: data[39],
            gateway_ip_address: bytes_at(data, 40),
        })
    }
}

impl BuildNode for Ipv6 {
    #[inline]
    fn full_type(&self) -> (DeviceType, DeviceSubType) {
        KIND.full_type
    }

    #[inline]
    fn write(&self, buffer: &mut [u8]) -> Result<usize, BuildError> {
        let fields = joined::<56>(&[
            &self.local_ip_address,
            &self.remote_ip_address,
            &self.local_port.to_le_bytes(),
            &self.remote_port.to_le_bytes(),
            &self.protocol.to_le_bytes(),
            &self.ip_address_origin.0.to_le_bytes(),
            &self.prefix_length.to_le_bytes(),
            &self.gateway_ip_address,
        ]);
        write_node(buffer, KIND, self, &fields, Tail::Bytes(&[]))
    }
}

/// Where the local IPv6 address comes from (UEFI 2.10, 10.3.4.13).
///
/// Numbers without a constant here are valid too.
#[derive(Clone, Copy, PartialEq, Eq, PartialOrd, Ord, Hash, Debug)]
#[repr(transparent)]
pub struct Ipv6AddressOrigin(pub u8);

impl Ipv6AddressOrigin {
    /// It is set by hand.
    pub const MANUAL: Ipv6AddressOrigin = Ipv6AddressOrigin(0);

    /// Stateless auto-configuration.
    pub const AUTO: Ipv6AddressOrigin = Ipv6AddressOrigin(1);

    /// Stateful configuration.
    pub const STATEFUL: Ipv6AddressOrigin = Ipv6AddressOrigin(2);
}
