// @generated from proved source. It is not edited.

use crate::formats::uefi_node::error::NodeConversionError;
use crate::formats::uefi_node::read::{NodeKind, NodeValue, RestKind, read_node};
use crate::formats::uefi_node::write::{Tail, joined, write_node};
use crate::formats::uefi_base::little_endian::u16_at;
use crate::formats::uefi_path::build::{BuildError, BuildNode};
use crate::formats::uefi_path::{DevicePathNode, DeviceSubType, DeviceType};

/// A SCSI device (UEFI 2.10, 10.3.4.2).
///
/// | offset | bytes | field |
/// |---|---|---|
/// | 4 | 2 | `target_id` |
/// | 6 | 2 | `logical_unit_number` |
///
/// Offsets are from the start of the node. Numbers are little-endian.
#[derive(Clone, Copy, PartialEq, Eq, Debug)]
pub struct Scsi {
    /// The target on the bus.
    pub target_id: u16,
    /// The logical unit.
    pub logical_unit_number: u16,
}

/// The type of the nodes, and how long their data are.
const KIND: NodeKind = NodeKind {
    full_type: (DeviceType::MESSAGING, DeviceSubType::MESSAGING_SCSI),
    size: 4,
    rest: RestKind::Nothing,
};

impl<'a> TryFrom<DevicePathNode<'a>> for Scsi {
    type Error = NodeConversionError;

    #[inline]
    fn try_from(node: DevicePathNode<'a>) -> Result<Scsi, NodeConversionError> {
        read_node(&node, KIND)
    }
}

impl<'a> NodeValue<'a> for Scsi {
    #[inline]
    fn from_data(data: &'a [u8]) -> Option<Scsi> {
        Some(Scsi {
            target_id: u16_at(data, 0),
            logical_unit_number: u16_at(data, 2),
        })
    }
}

impl BuildNode for Scsi {
    #[inline]
    fn full_type(&self) -> (DeviceType, DeviceSubType) {
        KIND.full_type
    }

    #[inline]
    fn write(&self, buffer: &mut [u8]) -> Result<usize, BuildError> {
        let fields = joined::<4>(&[
            &self.target_id.to_le_bytes(),
            &self.logical_unit_number.to_le_bytes(),
        ]);
        write_node(buffer, KIND, self, &fields, Tail::Bytes(&[]))
    }
}
