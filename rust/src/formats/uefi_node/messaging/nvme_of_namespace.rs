// @generated from proved source. It is not edited.

use crate::formats::uefi_node::error::NodeConversionError;
use crate::formats::uefi_node::read::{NodeKind, NodeValue, RestKind, bytes_at, read_node};
use crate::formats::uefi_node::write::{Tail, joined, write_node};
use crate::formats::uefi_path::build::{BuildError, BuildNode};
use crate::formats::uefi_path::{DevicePathNode, DeviceSubType, DeviceType};

/// A namespace of an NVMe over Fabrics subsystem (UEFI 2.10, 10.3.4.33).
///
/// | offset | bytes | field |
/// |---|---|---|
/// | 4 | 1 | `nidt` |
/// | 5 | 16 | `nid` |
/// | 21 | the rest | `subsystem_nqn` |
///
/// Offsets are from the start of the node.
#[derive(Clone, Copy, PartialEq, Eq)]
pub struct NvmeOfNamespace<'a> {
    /// The type of the namespace identifier (NIDT).
    pub nidt: u8,
    /// The namespace identifier (NID).
    pub nid: [u8; 16],
    /// The qualified name (NQN) of the subsystem: UTF-8 with a NUL at its end.
    pub subsystem_nqn: &'a [u8],
}

impl core::fmt::Debug for NvmeOfNamespace<'_> {
    fn fmt(&self, f: &mut core::fmt::Formatter<'_>) -> core::fmt::Result {
        f.debug_struct("NvmeOfNamespace")
            .field("nidt", &self.nidt)
            .field("nid", &crate::support::debug::Bytes(&self.nid))
            .field("subsystem_nqn", &crate::support::debug::Bytes(self.subsystem_nqn))
            .finish()
    }
}

/// The type of the nodes, and how long their data are.
const KIND: NodeKind = NodeKind {
    full_type: (
        DeviceType::MESSAGING,
        DeviceSubType::MESSAGING_NVME_OF_NAMESPACE,
    ),
    size: 17,
    rest: RestKind::Bytes,
};

impl<'a> TryFrom<DevicePathNode<'a>> for NvmeOfNamespace<'a> {
    type Error = NodeConversionError;

    #[inline]
    fn try_from(node: DevicePathNode<'a>) -> Result<NvmeOfNamespace<'a>, NodeConversionError> {
        read_node(&node, KIND)
    }
}

impl<'a> NodeValue<'a> for NvmeOfNamespace<'a> {
    #[inline]
    fn from_data(data: &'a [u8]) -> Option<NvmeOfNamespace<'a>> {
        let (_, subsystem_nqn) = data.split_at(17);
        Some(NvmeOfNamespace {
            nidt: data[0],
            nid: bytes_at(data, 1),
            subsystem_nqn,
        })
    }
}

impl BuildNode for NvmeOfNamespace<'_> {
    #[inline]
    fn full_type(&self) -> (DeviceType, DeviceSubType) {
        KIND.full_type
    }

    #[inline]
    fn write(&self, buffer: &mut [u8]) -> Result<usize, BuildError> {
        let fields = joined::<17>(&[&self.nidt.to_le_bytes(), &self.nid]);
        write_node(buffer, KIND, self, &fields, Tail::Bytes(self.subsystem_nqn))
    }
}
