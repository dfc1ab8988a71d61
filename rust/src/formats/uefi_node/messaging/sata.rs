// @generated from proved source. It is not edited.

use crate::formats::uefi_node::error::NodeConversionError;
use crate::formats::uefi_node::read::{NodeKind, NodeValue, RestKind, read_node};
use crate::formats::uefi_node::write::{Tail, joined, write_node};
use crate::formats::uefi_base::little_endian::u16_at;
use crate::formats::uefi_path::build::{BuildError, BuildNode};
use crate::formats::uefi_path::{DevicePathNode, DeviceSubType, DeviceType};

/// A SATA device (UEFI 2.10, 10.3.4.6).
///
/// | offset | bytes | field |
/// |---|---|---|
/// | 4 | 2 | `hba_port_number` |
/// | 6 | 2 | `port_multiplier_port_number` |
/// | 8 | 2 | `logical_unit_number` |
///
/// Offsets are from the start of the node. Numbers are little-endian.
#[derive(Clone, Copy, PartialEq, Eq, Debug)]
pub struct Sata {
    /// The port of the host bus adapter.
    pub hba_port_number: u16,
    /// The port of the multiplier, or 0xffff if there is none.
    pub port_multiplier_port_number: u16,
    /// The logical unit.
    pub logical_unit_number: u16,
}

/// The type of the nodes, and how long their data are.
const KIND: NodeKind = NodeKind {
    full_type: (DeviceType::MESSAGING, DeviceSubType::MESSAGING_SATA),
    size: 6,
    rest: RestKind::Nothing,
};

impl<'a> TryFrom<DevicePathNode<'a>> for Sata {
    type Error = NodeConversionError;

    #[inline]
    fn try_from(node: DevicePathNode<'a>) -> Result<Sata, NodeConversionError> {
        read_node(&node, KIND)
    }
}

impl<'a> NodeValue<'a> for Sata {
    #[inline]
    fn from_data(data: &'a [u8]) -> Option<Sata> {
        Some(Sata {
            hba_port_number: u16_at(data, 0),
            port_multiplier_port_number: u16_at(data, 2),
            logical_unit_number: u16_at(data, 4),
        })
    }
}

impl BuildNode for Sata {
    #[inline]
    fn full_type(&self) -> (DeviceType, DeviceSubType) {
        KIND.full_type
    }

    #[inline]
    fn write(&self, buffer: &mut [u8]) -> Result<usize, BuildError> {
        let fields = joined::<6>(&[
            &self.hba_port_number.to_le_bytes(),
            &self.port_multiplier_port_number.to_le_bytes(),
            &self.logical_unit_number.to_le_bytes(),
        ]);
        write_node(buffer, KIND, self, &fields, Tail::Bytes(&[]))
    }
}
