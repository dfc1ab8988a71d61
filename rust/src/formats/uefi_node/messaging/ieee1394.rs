// @generated from proved source. It is not edited.

use crate::formats::uefi_node::error::NodeConversionError;
use crate::formats::uefi_node::read::{NodeKind, NodeValue, RestKind, bytes_at, read_node};
use crate::formats::uefi_node::write::{Tail, joined, write_node};
use crate::formats::uefi_base::little_endian::u32_at;
use crate::formats::uefi_path::build::{BuildError, BuildNode};
use crate::formats::uefi_path::{DevicePathNode, DeviceSubType, DeviceType};

/// An IEEE 1394 device (UEFI 2.10, 10.3.4.4).
///
/// | offset | bytes | field |
/// |---|---|---|
/// | 4 | 4 | `reserved` |
/// | 8 | 8 | `guid` |
///
/// Offsets are from the start of the node. Numbers are little-endian.
#[derive(Clone, Copy, PartialEq, Eq)]
pub struct Ieee1394 {
    /// Reserved bytes, which are zero in the standard.
    pub reserved: u32,
    /// The GUID of IEEE 1394, of eight bytes.
    pub guid: [u8; 8],
}

impl core::fmt::Debug for Ieee1394 {
    fn fmt(&self, f: &mut core::fmt::Formatter<'_>) -> core::fmt::Result {
        f.debug_struct("Ieee1394")
            .field("reserved", &self.reserved)
            .field("guid", &crate::support::debug::Bytes(&self.guid))
            .finish()
    }
}

/// The type of the nodes, and how long their data are.
const KIND: NodeKind = NodeKind {
    full_type: (DeviceType::MESSAGING, DeviceSubType::MESSAGING_1394),
    size: 12,
    rest: RestKind::Nothing,
};

impl<'a> TryFrom<DevicePathNode<'a>> for Ieee1394 {
    type Error = NodeConversionError;

    #[inline]
    fn try_from(node: DevicePathNode<'a>) -> Result<Ieee1394, NodeConversionError> {
        read_node(&node, KIND)
    }
}

impl<'a> NodeValue<'a> for Ieee1394 {
    #[inline]
    fn from_data(data: &'a [u8]) -> Option<Ieee1394> {
        Some(Ieee1394 {
            reserved: u32_at(data, 0),
            guid: bytes_at(data, 4),
        })
    }
}

impl BuildNode for Ieee1394 {
    #[inline]
    fn full_type(&self) -> (DeviceType, DeviceSubType) {
        KIND.full_type
    }

    #[inline]
    fn write(&self, buffer: &mut [u8]) -> Result<usize, BuildError> {
        let fields = joined::<12>(&[&self.reserved.to_le_bytes(), &self.guid]);
        write_node(buffer, KIND, self, &fields, Tail::Bytes(&[]))
    }
}
