// @generated from proved source. It is not edited.

use crate::formats::uefi_node::error::NodeConversionError;
use crate::formats::uefi_node::media::partition_signature::PartitionSignature;
use crate::formats::uefi_node::read::{NodeKind, NodeValue, RestKind, bytes_at, read_node};
use crate::formats::uefi_node::write::{Tail, joined, write_node};
use crate::formats::uefi_base::little_endian::{u32_at, u64_at};
use crate::formats::uefi_path::build::{BuildError, BuildNode};
use crate::formats::uefi_path::{DevicePathNode, DeviceSubType, DeviceType};

/// A partition of a hard drive (UEFI 2.10, 10.3.5.1).
///
/// | offset | bytes | field |
/// |---|---|---|
/// | 4 | 4 | `partition_number` |
/// | 8 | 8 | `partition_start` |
/// | 16 | 8 | `partition_size` |
/// | 24 | 16 | `partition_signature` |
/// | 40 | 1 | `partition_format` |
/// | 41 | 1 | the type of `partition_signature` |
///
/// Offsets are from the start of the node. Numbers are little-endian.
///
/// Writing fails with [`BuildError::Form`] if the signature isn't
/// [valid](PartitionSignature::is_valid).
#[derive(Clone, Copy, PartialEq, Eq, Debug)]
pub struct HardDrive {
    /// The number of the partition, from 1 on, or 0 for the whole drive.
    pub partition_number: u32,
    /// The first block.
    pub partition_start: u64,
    /// The number of blocks.
    pub partition_size: u64,
    /// What identifies the partition or its drive.
    pub partition_signature: PartitionSignature,
    /// The format of the partition table.
    pub partition_format: PartitionFormat,
}

/// The type of the nodes, and how long their data are.
const KIND: NodeKind = NodeKind {
    full_type: (DeviceType::MEDIA, DeviceSubType::MEDIA_HARD_DRIVE),
    size: 38,
    rest: RestKind::Nothing,
};

impl<'a> TryFrom<DevicePathNode<'a>> for HardDrive {
    type Error = NodeConversionError;

    #[inline]
    fn try_from(node: DevicePathNode<'a>) -> Result<HardDrive, NodeConversionError> {
        read_node(&node, KIND)
    }
}

impl<'a> NodeValue<'a> for HardDrive {
    #[inline]
    fn from_data(data: &'a [u8]) -> Option<HardDrive> {
        Some(HardDrive {
            partition_number: u32_at(data, 0),
            partition_start: u64_at(data, 4),
            partition_size: u64_at(data, 12),
            partition_signature: PartitionSignature::new(data[37], bytes_at(data, 20)),
            partition_format: PartitionFormat(data[36]),
        })
    }
}

impl BuildNode for HardDrive {
    #[inline]
    fn full_type(&self) -> (DeviceType, DeviceSubType) {
        KIND.full_type
    }

    #[inline]
    fn write(&self, buffer: &mut [u8]) -> Result<usize, BuildError> {
        if !self.partition_signature.is_valid() {
            return Err(BuildError::Form);
        }
        let fields = joined::<38>(&[
            &self.partition_number.to_le_bytes(),
            &self.partition_start.to_le_bytes(),
            &self.partition_size.to_le_bytes(),
            &self.partition_signature.to_bytes(),
            &self.partition_format.0.to_le_bytes(),
            &self.partition_signature.signature_type().to_le_bytes(),
        ]);
        write_node(buffer, KIND, self, &fields, Tail::Bytes(&[]))
    }
}

/// The format of a partition table (UEFI 2.10, 10.3.5.1).
///
/// Numbers without a constant here are valid too.
#[derive(Clone, Copy, PartialEq, Eq, PartialOrd, Ord, Hash, Debug)]
#[repr(transparent)]
pub struct PartitionFormat(pub u8);

impl PartitionFormat {
    /// A master boot record.
    pub const MBR: PartitionFormat = PartitionFormat(1);

    /// A GUID partition table.
    pub const GPT: PartitionFormat = PartitionFormat(2);
}
