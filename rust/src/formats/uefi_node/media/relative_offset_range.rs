// @generated from proved source. It is not edited.

use crate::formats::uefi_node::error::NodeConversionError;
use crate::formats::uefi_node::read::{NodeKind, NodeValue, RestKind, read_node};
use crate::formats::uefi_node::write::{Tail, joined, write_node};
use crate::formats::uefi_base::little_endian::{u32_at, u64_at};
use crate::formats::uefi_path::build::{BuildError, BuildNode};
use crate::formats::uefi_path::{DevicePathNode, DeviceSubType, DeviceType};

/// A range of a medium (UEFI 2.10, 10.3.5.8).
///
/// | offset | bytes | field |
/// |---|---|---|
/// | 4 | 4 | `reserved` |
/// | 8 | 8 | `starting_offset` |
/// | 16 | 8 | `ending_offset` |
///
/// Offsets are from the start of the node. Numbers are little-endian.
#[derive(Clone, Copy, PartialEq, Eq, Debug)]
pub struct RelativeOffsetRange {
    /// Reserved bytes, which are zero in the standard.
    pub reserved: u32,
    /// The offset of the first byte.
    pub starting_offset: u64,
    /// The offset of the last byte.
    pub ending_offset: u64,
}

/// The type of the nodes, and how long their data are.
const KIND: NodeKind = NodeKind {
    full_type: (
        DeviceType::MEDIA,
        DeviceSubType::MEDIA_RELATIVE_OFFSET_RANGE,
    ),
    size: 20,
    rest: RestKind::Nothing,
};

impl<'a> TryFrom<DevicePathNode<'a>> for RelativeOffsetRange {
    type Error = NodeConversionError;

    #[inline]
    fn try_from(node: DevicePathNode<'a>) -> Result<RelativeOffsetRange, NodeConversionError> {
        read_node(&node, KIND)
    }
}

impl<'a> NodeValue<'a> for RelativeOffsetRange {
    #[inline]
    fn from_data(data: &'a [u8]) -> Option<RelativeOffsetRange> {
        Some(RelativeOffsetRange {
            reserved: u32_at(data, 0),
            starting_offset: u64_at(data, 4),
            ending_offset: u64_at(data, 12),
        })
    }
}

impl BuildNode for RelativeOffsetRange {
    #[inline]
    fn full_type(&self) -> (DeviceType, DeviceSubType) {
        KIND.full_type
    }

    #[inline]
    fn write(&self, buffer: &mut [u8]) -> Result<usize, BuildError> {
        let fields = joined::<20>(&[
            &self.reserved.to_le_bytes(),
            &self.starting_offset.to_le_bytes(),
            &self.ending_offset.to_le_bytes(),
        ]);
        write_node(buffer, KIND, self, &fields, Tail::Bytes(&[]))
    }
}
