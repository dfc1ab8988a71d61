// @generated from proved source. It is not edited.

use crate::formats::uefi_node::error::NodeConversionError;
use crate::formats::uefi_node::read::{NodeKind, NodeValue, RestKind, read_node};
use crate::formats::uefi_node::write::{Tail, write_node};
use crate::formats::uefi_path::build::{BuildError, BuildNode};
use crate::formats::uefi_path::{DevicePathNode, DeviceSubType, DeviceType};

/// A file of a firmware volume (UEFI 2.10, 10.3.5.6).
///
/// | offset | bytes | field |
/// |---|---|---|
/// | 4 | the rest | `data` |
///
/// Offsets are from the start of the node.
#[derive(Clone, Copy, PartialEq, Eq)]
pub struct PiwgFirmwareFile<'a> {
    /// What the PI specification says: 16 bytes, the GUID that names the file.
    pub data: &'a [u8],
}

impl core::fmt::Debug for PiwgFirmwareFile<'_> {
    fn fmt(&self, f: &mut core::fmt::Formatter<'_>) -> core::fmt::Result {
        f.debug_struct("PiwgFirmwareFile")
            .field("data", &crate::support::debug::Bytes(self.data))
            .finish()
    }
}

/// The type of the nodes, and how long their data are.
const KIND: NodeKind = NodeKind {
    full_type: (DeviceType::MEDIA, DeviceSubType::MEDIA_PIWG_FIRMWARE_FILE),
    size: 0,
    rest: RestKind::Bytes,
};

impl<'a> TryFrom<DevicePathNode<'a>> for PiwgFirmwareFile<'a> {
    type Error = NodeConversionError;

    #[inline]
    fn try_from(node: DevicePathNode<'a>) -> Result<PiwgFirmwareFile<'a>, NodeConversionError> {
        read_node(&node, KIND)
    }
}

impl<'a> NodeValue<'a> for PiwgFirmwareFile<'a> {
    #[inline]
    fn from_data(data: &'a [u8]) -> Option<PiwgFirmwareFile<'a>> {
        Some(PiwgFirmwareFile { data })
    }
}

impl BuildNode for PiwgFirmwareFile<'_> {
    #[inline]
    fn full_type(&self) -> (DeviceType, DeviceSubType) {
        KIND.full_type
    }

    #[inline]
    fn write(&self, buffer: &mut [u8]) -> Result<usize, BuildError> {
        write_node(buffer, KIND, self, &[], Tail::Bytes(self.data))
    }
}
