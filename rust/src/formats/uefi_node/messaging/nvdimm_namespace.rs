// @generated from proved source. It is not edited.

use crate::formats::uefi_node::error::NodeConversionError;
use crate::formats::uefi_node::read::{NodeKind, NodeValue, RestKind, bytes_at, read_node};
use crate::formats::uefi_node::write::{Tail, joined, write_node};
use crate::formats::uefi_path::build::{BuildError, BuildNode};
use crate::formats::uefi_path::{DevicePathNode, DeviceSubType, DeviceType};

/// A namespace of an NVDIMM (UEFI 2.10, 10.3.4.31).
///
/// | offset | bytes | field |
/// |---|---|---|
/// | 4 | 16 | `uuid` |
///
/// Offsets are from the start of the node.
#[derive(Clone, Copy, PartialEq, Eq)]
pub struct NvdimmNamespace {
    /// The label UUID of the namespace.
    pub uuid: [u8; 16],
}

impl core::fmt::Debug for NvdimmNamespace {
    fn fmt(&self, f: &mut core::fmt::Formatter<'_>) -> core::fmt::Result {
        f.debug_struct("NvdimmNamespace")
            .field("uuid", &crate::support::debug::Bytes(&self.uuid))
            .finish()
    }
}

/// The type of the nodes, and how long their data are.
const KIND: NodeKind = NodeKind {
    full_type: (
        DeviceType::MESSAGING,
        DeviceSubType::MESSAGING_NVDIMM_NAMESPACE,
    ),
    size: 16,
    rest: RestKind::Nothing,
};

impl<'a> TryFrom<DevicePathNode<'a>> for NvdimmNamespace {
    type Error = NodeConversionError;

    #[inline]
    fn try_from(node: DevicePathNode<'a>) -> Result<NvdimmNamespace, NodeConversionError> {
        read_node(&node, KIND)
    }
}

impl<'a> NodeValue<'a> for NvdimmNamespace {
    #[inline]
    fn from_data(data: &'a [u8]) -> Option<NvdimmNamespace> {
        Some(NvdimmNamespace {
            uuid: bytes_at(data, 0),
        })
    }
}

impl BuildNode for NvdimmNamespace {
    #[inline]
    fn full_type(&self) -> (DeviceType, DeviceSubType) {
        KIND.full_type
    }

    #[inline]
    fn write(&self, buffer: &mut [u8]) -> Result<usize, BuildError> {
        let fields = joined::<16>(&[&self.uuid]);
        write_node(buffer, KIND, self, &fields, Tail::Bytes(&[]))
    }
}
