// @generated from proved source. It is not edited.

use crate::formats::uefi_node::error::NodeConversionError;
use crate::formats::uefi_node::read::{NodeKind, NodeValue, RestKind, read_node};
use crate::formats::uefi_node::write::{Tail, joined, write_node};
use crate::formats::uefi_base::little_endian::{u32_at, u64_at};
use crate::formats::uefi_map::MemoryType;
use crate::formats::uefi_path::build::{BuildError, BuildNode};
use crate::formats::uefi_path::{DevicePathNode, DeviceSubType, DeviceType};

/// A range of memory (UEFI 2.10, 10.3.2.3).
///
/// | offset | bytes | field |
/// |---|---|---|
/// | 4 | 4 | `memory_type` |
/// | 8 | 8 | `start_address` |
/// | 16 | 8 | `end_address` |
///
/// Offsets are from the start of the node. Numbers are little-endian.
#[derive(Clone, Copy, PartialEq, Eq, Debug)]
pub struct MemoryMapped {
    /// The type of the memory.
    pub memory_type: MemoryType,
    /// The address of its first byte.
    pub start_address: u64,
    /// The address of its last byte.
    pub end_address: u64,
}

/// The type of the nodes, and how long their data are.
const KIND: NodeKind = NodeKind {
    full_type: (DeviceType::HARDWARE, DeviceSubType::HARDWARE_MEMORY_MAPPED),
    size: 20,
    rest: RestKind::Nothing,
};

impl<'a> TryFrom<DevicePathNode<'a>> for MemoryMapped {
    type Error = NodeConversionError;

    #[inline]
    fn try_from(node: DevicePathNode<'a>) -> Result<MemoryMapped, NodeConversionError> {
        read_node(&node, KIND)
    }
}

impl<'a> NodeValue<'a> for MemoryMapped {
    #[inline]
    fn from_data(data: &'a [u8]) -> Option<MemoryMapped> {
        Some(MemoryMapped {
            memory_type: MemoryType(u32_at(data, 0)),
            start_address: u64_at(data, 4),
            end_address: u64_at(data, 12),
        })
    }
}

impl BuildNode for MemoryMapped {
    #[inline]
    fn full_type(&self) -> (DeviceType, DeviceSubType) {
        KIND.full_type
    }

    #[inline]
    fn write(&self, buffer: &mut [u8]) -> Result<usize, BuildError> {
        let fields = joined::<20>(&[
            &self.memory_type.0.to_le_bytes(),
            &self.start_address.to_le_bytes(),
            &self.end_address.to_le_bytes(),
        ]);
        write_node(buffer, KIND, self, &fields, Tail::Bytes(&[]))
    }
}
