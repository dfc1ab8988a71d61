// @generated from proved source. It is not edited.

use crate::formats::uefi_node::error::NodeConversionError;
use crate::formats::uefi_node::read::{NodeKind, NodeValue, RestKind, bytes_at, read_node};
use crate::formats::uefi_node::write::{Tail, joined, write_node};
use crate::formats::uefi_path::build::{BuildError, BuildNode};
use crate::formats::uefi_path::{DevicePathNode, DeviceSubType, DeviceType};

/// The address of a network interface (UEFI 2.10, 10.3.4.11).
///
/// | offset | bytes | field |
/// |---|---|---|
/// | 4 | 32 | `mac_address` |
/// | 36 | 1 | `interface_type` |
///
/// Offsets are from the start of the node.
#[derive(Clone, Copy, PartialEq, Eq)]
pub struct MacAddress {
    /// The address, with zeros after it.
    pub mac_address: [u8; 32],
    /// The type of the interface, a number of RFC 3232.
    pub interface_type: u8,
}

impl core::fmt::Debug for MacAddress {
    fn fmt(&self, f: &mut core::fmt::Formatter<'_>) -> core::fmt::Result {
        f.debug_struct("MacAddress")
            .field("mac_address", &crate::support::debug::Bytes(&self.mac_address))
            .field("interface_type", &self.interface_type)
            .finish()
    }
}

/// The type of the nodes, and how long their data are.
const KIND: NodeKind = NodeKind {
    full_type: (DeviceType::MESSAGING, DeviceSubType::MESSAGING_MAC_ADDRESS),
    size: 33,
    rest: RestKind::Nothing,
};

impl<'a> TryFrom<DevicePathNode<'a>> for MacAddress {
    type Error = NodeConversionError;

    #[inline]
    fn try_from(node: DevicePathNode<'a>) -> Result<MacAddress, NodeConversionError> {
        read_node(&node, KIND)
    }
}

impl<'a> NodeValue<'a> for MacAddress {
    #[inline]
    fn from_data(data: &'a [u8]) -> Option<MacAddress> {
        Some(MacAddress {
            mac_address: bytes_at(data, 0),
            interface_type: data[32],
        })
    }
}

impl BuildNode for MacAddress {
    #[inline]
    fn full_type(&self) -> (DeviceType, DeviceSubType) {
        KIND.full_type
    }

    #[inline]
    fn write(&self, buffer: &mut [u8]) -> Result<usize, BuildError> {
        let fields = joined::<33>(&[&self.mac_address, &self.interface_type.to_le_bytes()]);
        write_node(buffer, KIND, self, &fields, Tail::Bytes(&[]))
    }
}
