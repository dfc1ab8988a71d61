// @generated from proved source. It is not edited.

use crate::formats::uefi_node::error::NodeConversionError;
use crate::formats::uefi_node::messaging::dns_addresses::DnsAddresses;
use crate::formats::uefi_node::read::{NodeKind, NodeValue, RestKind, read_node};
use crate::formats::uefi_node::write::{Tail, joined, write_node};
use crate::formats::uefi_path::build::{BuildError, BuildNode};
use crate::formats::uefi_path::{DevicePathNode, DeviceSubType, DeviceType};

/// Addresses of DNS servers (UEFI 2.10, 10.3.4.30).
///
/// | offset | bytes | field |
/// |---|---|---|
/// | 4 | 1 | `address_type` |
/// | 5 | 16 each | `addresses` |
///
/// Offsets are from the start of the node.
#[derive(Clone, Copy, PartialEq, Eq, Debug)]
pub struct Dns<'a> {
    /// The type of the addresses.
    pub address_type: DnsAddressType,
    /// The addresses.
    pub addresses: DnsAddresses<'a>,
}

/// The type of the nodes, and how long their data are.
const KIND: NodeKind = NodeKind {
    full_type: (DeviceType::MESSAGING, DeviceSubType::MESSAGING_DNS),
    size: 1,
    rest: RestKind::Addresses,
};

impl<'a> TryFrom<DevicePathNode<'a>> for Dns<'a> {
    type Error = NodeConversionError;

    #[inline]
    fn try_from(node: DevicePathNode<'a>) -> Result<Dns<'a>, NodeConversionError> {
        read_node(&node, KIND)
    }
}

impl<'a> NodeValue<'a> for Dns<'a> {
    #[inline]
    fn from_data(data: &'a [u8]) -> Option<Dns<'a>> {
        let (_, addresses) = data.split_at(1);
        Some(Dns {
            address_type: DnsAddressType(data[0]),
            addresses: DnsAddresses::new_unchecked(addresses),
        })
    }
}

impl BuildNode for Dns<'_> {
    #[inline]
    fn full_type(&self) -> (DeviceType, DeviceSubType) {
        KIND.full_type
    }

    #[inline]
    fn write(&self, buffer: &mut [u8]) -> Result<usize, BuildError> {
        let fields = joined::<1>(&[&self.address_type.0.to_le_bytes()]);
        write_node(
            buffer,
            KIND,
            self,
            &fields,
            Tail::Bytes(self.addresses.as_bytes()),
        )
    }
}

/// The type of the addresses of DNS servers (UEFI 2.10, 10.3.4.30).
///
/// Numbers without a constant here are valid too.
#[derive(Clone, Copy, PartialEq, Eq, PartialOrd, Ord, Hash, Debug)]
#[repr(transparent)]
pub struct DnsAddressType(pub u8);

impl DnsAddressType {
    /// IPv4: the first four bytes of each address.
    pub const IPV4: DnsAddressType = DnsAddressType(0);

    /// IPv6: all 16 bytes.
    pub const IPV6: DnsAddressType = DnsAddressType(1);
}
