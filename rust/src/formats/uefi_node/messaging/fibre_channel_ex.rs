// @generated from proved source. It is not edited.

use crate::formats::uefi_node::error::NodeConversionError;
use crate::formats::uefi_node::read::{NodeKind, NodeValue, RestKind, bytes_at, read_node};
use crate::formats::uefi_node::write::{Tail, joined, write_node};
use crate::formats::uefi_base::little_endian::u32_at;
use crate::formats::uefi_path::build::{BuildError, BuildNode};
use crate::formats::uefi_path::{DevicePathNode, DeviceSubType, DeviceType};

/// A Fibre Channel device, with its addresses as bytes (UEFI 2.10, 10.3.4.3).
///
/// | offset | bytes | field |
/// |---|---|---|
/// | 4 | 4 | `reserved` |
/// | 8 | 8 | `world_wide_name` |
/// | 16 | 8 | `logical_unit_number` |
///
/// Offsets are from the start of the node. Numbers are little-endian.
#[derive(Clone, Copy, PartialEq, Eq)]
pub struct FibreChannelEx {
    /// Reserved bytes, which are zero in the standard.
    pub reserved: u32,
    /// The port name of the target.
    pub world_wide_name: [u8; 8],
    /// The logical unit.
    pub logical_unit_number: [u8; 8],
}

impl core::fmt::Debug for FibreChannelEx {
    fn fmt(&self, f: &mut core::fmt::Formatter<'_>) -> core::fmt::Result {
        f.debug_struct("FibreChannelEx")
            .field("reserved", &self.reserved)
            .field("world_wide_name", &crate::support::debug::Bytes(&self.world_wide_name))
            .field("logical_unit_number", &crate::support::debug::Bytes(&self.logical_unit_number))
            .finish()
    }
}

/// The type of the nodes, and how long their data are.
const KIND: NodeKind = NodeKind {
    full_type: (
        DeviceType::MESSAGING,
        DeviceSubType::MESSAGING_FIBRE_CHANNEL_EX,
    ),
    size: 20,
    rest: RestKind::Nothing,
};

impl<'a> TryFrom<DevicePathNode<'a>> for FibreChannelEx {
    type Error = NodeConversionError;

    #[inline]
    fn try_from(node: DevicePathNode<'a>) -> Result<FibreChannelEx, NodeConversionError> {
        read_node(&node, KIND)
    }
}

impl<'a> NodeValue<'a> for FibreChannelEx {
    #[inline]
    fn from_data(data: &'a [u8]) -> Option<FibreChannelEx> {
        Some(FibreChannelEx {
            reserved: u32_at(data, 0),
            world_wide_name: bytes_at(data, 4),
            logical_unit_number: bytes_at(data, 12),
        })
    }
}

impl BuildNode for FibreChannelEx {
    #[inline]
    fn full_type(&self) -> (DeviceType, DeviceSubType) {
        KIND.full_type
    }

    #[inline]
    fn write(&self, buffer: &mut [u8]) -> Result<usize, BuildError> {
        let fields = joined::<20>(&[
            &self.reserved.to_le_bytes(),
            &self.world_wide_name,
            &self.logical_unit_number,
        ]);
        write_node(buffer, KIND, self, &fields, Tail::Bytes(&[]))
    }
}
