// @generated from proved source. It is not edited.

use crate::formats::uefi_node::error::NodeConversionError;
use crate::formats::uefi_node::read::{NodeKind, NodeValue, RestKind, read_node};
use crate::formats::uefi_node::write::{Tail, joined, write_node};
use crate::formats::uefi_base::little_endian::{u32_at, u64_at};
use crate::formats::uefi_path::build::{BuildError, BuildNode};
use crate::formats::uefi_path::{DevicePathNode, DeviceSubType, DeviceType};

/// A boot entry of a CD-ROM (UEFI 2.10, 10.3.5.2).
///
/// | offset | bytes | field |
/// |---|---|---|
/// | 4 | 4 | `boot_entry` |
/// | 8 | 8 | `partition_start` |
/// | 16 | 8 | `partition_size` |
///
/// Offsets are from the start of the node. Numbers are little-endian.
#[derive(Clone, Copy, PartialEq, Eq, Debug)]
pub struct CdRom {
    /// The number of the entry in the boot catalog; the default entry is 0.
    pub boot_entry: u32,
    /// The first block of the partition.
    pub partition_start: u64,
    /// The number of its blocks.
    pub partition_size: u64,
}

/// The type of the nodes, and how long their data are.
const KIND: NodeKind = NodeKind {
    full_type: (DeviceType::MEDIA, DeviceSubType::MEDIA_CD_ROM),
    size: 20,
    rest: RestKind::Nothing,
};

impl<'a> TryFrom<DevicePathNode<'a>> for CdRom {
    type Error = NodeConversionError;

    #[inline]
    fn try_from(node: DevicePathNode<'a>) -> Result<CdRom, NodeConversionError> {
        read_node(&node, KIND)
    }
}

impl<'a> NodeValue<'a> for CdRom {
    #[inline]
    fn from_data(data: &'a [u8]) -> Option<CdRom> {
        Some(CdRom {
            boot_entry: u32_at(data, 0),
            partition_start: u64_at(data, 4),
            partition_size: u64_at(data, 12),
        })
    }
}

impl BuildNode for CdRom {
    #[inline]
    fn full_type(&self) -> (DeviceType, DeviceSubType) {
        KIND.full_type
    }

    #[inline]
    fn write(&self, buffer: &mut [u8]) -> Result<usize, BuildError> {
        let fields = joined::<20>(&[
            &self.boot_entry.to_le_bytes(),
            &self.partition_start.to_le_bytes(),
            &self.partition_size.to_le_bytes(),
        ]);
        write_node(buffer, KIND, self, &fields, Tail::Bytes(&[]))
    }
}
