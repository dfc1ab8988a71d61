// @generated from proved source. It is not edited.

use crate::formats::uefi_node::error::NodeConversionError;
use crate::formats::uefi_node::media::ram_disk_type::RamDiskType;
use crate::formats::uefi_node::read::{NodeKind, NodeValue, RestKind, bytes_at, read_node};
use crate::formats::uefi_node::write::{Tail, joined, write_node};
use crate::formats::uefi_base::Guid;
use crate::formats::uefi_base::little_endian::{u16_at, u64_at};
use crate::formats::uefi_path::build::{BuildError, BuildNode};
use crate::formats::uefi_path::{DevicePathNode, DeviceSubType, DeviceType};

/// A RAM disk (UEFI 2.10, 10.3.5.9).
///
/// | offset | bytes | field |
/// |---|---|---|
/// | 4 | 8 | `starting_address` |
/// | 12 | 8 | `ending_address` |
/// | 20 | 16 | `disk_type` |
/// | 36 | 2 | `disk_instance` |
///
/// Offsets are from the start of the node. Numbers are little-endian.
#[derive(Clone, Copy, PartialEq, Eq, Debug)]
pub struct RamDisk {
    /// The address of its first byte.
    pub starting_address: u64,
    /// The address of its last byte.
    pub ending_address: u64,
    /// Its type.
    pub disk_type: RamDiskType,
    /// Its number among the disks of this type.
    pub disk_instance: u16,
}

/// The type of the nodes, and how long their data are.
const KIND: NodeKind = NodeKind {
    full_type: (DeviceType::MEDIA, DeviceSubType::MEDIA_RAM_DISK),
    size: 34,
    rest: RestKind::Nothing,
};

impl<'a> TryFrom<DevicePathNode<'a>> for RamDisk {
    type Error = NodeConversionError;

    #[inline]
    fn try_from(node: DevicePathNode<'a>) -> Result<RamDisk, NodeConversionError> {
        read_node(&node, KIND)
    }
}

impl<'a> NodeValue<'a> for RamDisk {
    #[inline]
    fn from_data(data: &'a [u8]) -> Option<RamDisk> {
        Some(RamDisk {
            starting_address: u64_at(data, 0),
            ending_address: u64_at(data, 8),
            disk_type: RamDiskType(Guid(bytes_at(data, 16))),
            disk_instance: u16_at(data, 32),
        })
    }
}

impl BuildNode for RamDisk {
    #[inline]
    fn full_type(&self) -> (DeviceType, DeviceSubType) {
        KIND.full_type
    }

    #[inline]
    fn write(&self, buffer: &mut [u8]) -> Result<usize, BuildError> {
        let fields = joined::<34>(&[
            &self.starting_address.to_le_bytes(),
            &self.ending_address.to_le_bytes(),
            &self.disk_type.0.to_bytes(),
            &self.disk_instance.to_le_bytes(),
        ]);
        write_node(buffer, KIND, self, &fields, Tail::Bytes(&[]))
    }
}
