// @generated from proved source. It is not edited.

use crate::formats::uefi_node::error::NodeConversionError;
use crate::formats::uefi_node::read::{NodeKind, NodeValue, RestKind, read_node};
use crate::formats::uefi_node::write::{Tail, write_node};
use crate::formats::uefi_path::build::{BuildError, BuildNode};
use crate::formats::uefi_path::{DevicePathNode, DeviceSubType, DeviceType};

/// A firmware volume (UEFI 2.10, 10.3.5.7).
///
/// | offset | bytes | field |
/// |---|---|---|
/// | 4 | the rest | `data` |
///
/// Offsets are from the start of the node.
#[derive(Clone, Copy, PartialEq, Eq)]
pub struct PiwgFirmwareVolume<'a> {
    /// What the PI specification says: 16 bytes, the GUID that names the volume.
    pub data: &'a [u8],
}

impl core::fmt::Debug for PiwgFirmwareVolume<'_> {
    fn fmt(&self, f: &mut core::fmt::Formatter<'_>) -> core::fmt::Result {
        f.debug_struct("PiwgFirmwareVolume")
            .field("data", &crate::support::debug::Bytes(self.data))
            .finish()
    }
}

/// The type of the nodes, and how long their data are.
const KIND: NodeKind = NodeKind {
    full_type: (DeviceType::MEDIA, DeviceSubType::MEDIA_PIWG_FIRMWARE_VOLUME),
    size: 0,
    rest: RestKind::Bytes,
};

impl<'a> TryFrom<DevicePathNode<'a>> for PiwgFirmwareVolume<'a> {
    type Error = NodeConversionError;

    #[inline]
    fn try_from(node: DevicePathNode<'a>) -> Result<PiwgFirmwareVolume<'a>, NodeConversionError> {
        read_node(&node, KIND)
    }
}

impl<'a> NodeValue<'a> for PiwgFirmwareVolume<'a> {
    #[inline]
    fn from_data(data: &'a [u8]) -> Option<PiwgFirmwareVolume<'a>> {
        Some(PiwgFirmwareVolume { data })
    }
}

impl BuildNode for PiwgFirmwareVolume<'_> {
    #[inline]
    fn full_type(&self) -> (DeviceType, DeviceSubType) {
        KIND.full_type
    }

    #[inline]
    fn write(&self, buffer: &mut [u8]) -> Result<usize, BuildError> {
        write_node(buffer, KIND, self, &[], Tail::Bytes(self.data))
    }
}
