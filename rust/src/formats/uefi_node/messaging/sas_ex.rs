// @generated from proved source. It is not edited.

use crate::formats::uefi_node::error::NodeConversionError;
use crate::formats::uefi_node::read::{NodeKind, NodeValue, RestKind, bytes_at, read_node};
use crate::formats::uefi_node::write::{Tail, joined, write_node};
use crate::formats::uefi_base::little_endian::u16_at;
use crate::formats::uefi_path::build::{BuildError, BuildNode};
use crate::formats::uefi_path::{DevicePathNode, DeviceSubType, DeviceType};

/// A Serial Attached SCSI device (UEFI 2.10, 10.3.4.20).
///
/// | offset | bytes | field |
/// |---|---|---|
/// | 4 | 8 | `sas_address` |
/// | 12 | 8 | `logical_unit_number` |
/// | 20 | 2 | `info` |
/// | 22 | 2 | `relative_target_port` |
///
/// Offsets are from the start of the node. Numbers are little-endian.
#[derive(Clone, Copy, PartialEq, Eq)]
pub struct SasEx {
    /// The SAS address.
    pub sas_address: [u8; 8],
    /// The logical unit.
    pub logical_unit_number: [u8; 8],
    /// What is known of the device and the topology.
    pub info: u16,
    /// The relative target port.
    pub relative_target_port: u16,
}

impl core::fmt::Debug for SasEx {
    fn fmt(&self, f: &mut core::fmt::Formatter<'_>) -> core::fmt::Result {
        f.debug_struct("SasEx")
            .field("sas_address", &crate::support::debug::Bytes(&self.sas_address))
            .field("logical_unit_number", &crate::support::debug::Bytes(&self.logical_unit_number))
            .field("info", &self.info)
            .field("relative_target_port", &self.relative_target_port)
            .finish()
    }
}

/// The type of the nodes, and how long their data are.
const KIND: NodeKind = NodeKind {
    full_type: (DeviceType::MESSAGING, DeviceSubType::MESSAGING_SCSI_SAS_EX),
    size: 20,
    rest: RestKind::Nothing,
};

impl<'a> TryFrom<DevicePathNode<'a>> for SasEx {
    type Error = NodeConversionError;

    #[inline]
    fn try_from(node: DevicePathNode<'a>) -> Result<SasEx, NodeConversionError> {
        read_node(&node, KIND)
    }
}

impl<'a> NodeValue<'a> for SasEx {
    #[inline]
    fn from_data(data: &'a [u8]) -> Option<SasEx> {
        Some(SasEx {
            sas_address: bytes_at(data, 0),
            logical_unit_number: bytes_at(data, 8),
            info: u16_at(data, 16),
            relative_target_port: u16_at(data, 18),
        })
    }
}

impl BuildNode for SasEx {
    #[inline]
    fn full_type(&self) -> (DeviceType, DeviceSubType) {
        KIND.full_type
    }

    #[inline]
    fn write(&self, buffer: &mut [u8]) -> Result<usize, BuildError> {
        let fields = joined::<20>(&[
            &self.sas_address,
            &self.logical_unit_number,
            &self.info.to_le_bytes(),
            &self.relative_target_port.to_le_bytes(),
        ]);
        write_node(buffer, KIND, self, &fields, Tail::Bytes(&[]))
    }
}
