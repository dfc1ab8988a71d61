// @generated from proved source. It is not edited.

use crate::formats::uefi_node::error::NodeConversionError;
use crate::formats::uefi_node::read::{NodeKind, NodeValue, RestKind, read_node};
use crate::formats::uefi_node::write::{Tail, joined, write_node};
use crate::formats::uefi_path::build::{BuildError, BuildNode};
use crate::formats::uefi_path::{DevicePathNode, DeviceSubType, DeviceType};

/// A logical unit of a device (UEFI 2.10, 10.3.4.8).
///
/// | offset | bytes | field |
/// |---|---|---|
/// | 4 | 1 | `logical_unit_number` |
///
/// Offsets are from the start of the node.
#[derive(Clone, Copy, PartialEq, Eq, Debug)]
pub struct DeviceLogicalUnit {
    /// The logical unit.
    pub logical_unit_number: u8,
}

/// The type of the nodes, and how long their data are.
const KIND: NodeKind = NodeKind {
    full_type: (
        DeviceType::MESSAGING,
        DeviceSubType::MESSAGING_DEVICE_LOGICAL_UNIT,
    ),
    size: 1,
    rest: RestKind::Nothing,
};

impl<'a> TryFrom<DevicePathNode<'a>> for DeviceLogicalUnit {
    type Error = NodeConversionError;

    #[inline]
    fn try_from(node: DevicePathNode<'a>) -> Result<DeviceLogicalUnit, NodeConversionError> {
        read_node(&node, KIND)
    }
}

impl<'a> NodeValue<'a> for DeviceLogicalUnit {
    #[inline]
    fn from_data(data: &'a [u8]) -> Option<DeviceLogicalUnit> {
        Some(DeviceLogicalUnit {
            logical_unit_number: data[0],
        })
    }
}

impl BuildNode for DeviceLogicalUnit {
    #[inline]
    fn full_type(&self) -> (DeviceType, DeviceSubType) {
        KIND.full_type
    }

    #[inline]
    fn write(&self, buffer: &mut [u8]) -> Result<usize, BuildError> {
        let fields = joined::<1>(&[&self.logical_unit_number.to_le_bytes()]);
        write_node(buffer, KIND, self, &fields, Tail::Bytes(&[]))
    }
}
