// @generated from proved source. It is not edited.

use crate::formats::uefi_node::error::NodeConversionError;
use crate::formats::uefi_node::read::{NodeKind, NodeValue, RestKind, read_node};
use crate::formats::uefi_node::write::{Tail, joined, write_node};
use crate::formats::uefi_base::little_endian::{u32_at, u64_at};
use crate::formats::uefi_path::build::{BuildError, BuildNode};
use crate::formats::uefi_path::{DevicePathNode, DeviceSubType, DeviceType};

/// A namespace of an NVM Express device (UEFI 2.10, 10.3.4.22).
///
/// | offset | bytes | field |
/// |---|---|---|
/// | 4 | 4 | `namespace_identifier` |
/// | 8 | 8 | `ieee_extended_unique_identifier` |
///
/// Offsets are from the start of the node. Numbers are little-endian.
#[derive(Clone, Copy, PartialEq, Eq, Debug)]
pub struct NvmeNamespace {
    /// The number of the namespace.
    pub namespace_identifier: u32,
    /// The extended unique identifier (EUI-64), or 0 if there is none.
    pub ieee_extended_unique_identifier: u64,
}

/// The type of the nodes, and how long their data are.
const KIND: NodeKind = NodeKind {
    full_type: (
        DeviceType::MESSAGING,
        DeviceSubType::MESSAGING_NVME_NAMESPACE,
    ),
    size: 12,
    rest: RestKind::Nothing,
};

impl<'a> TryFrom<DevicePathNode<'a>> for NvmeNamespace {
    type Error = NodeConversionError;

    #[inline]
    fn try_from(node: DevicePathNode<'a>) -> Result<NvmeNamespace, NodeConversionError> {
        read_node(&node, KIND)
    }
}

impl<'a> NodeValue<'a> for NvmeNamespace {
    #[inline]
    fn from_data(data: &'a [u8]) -> Option<NvmeNamespace> {
        Some(NvmeNamespace {
            namespace_identifier: u32_at(data, 0),
            ieee_extended_unique_identifier: u64_at(data, 4),
        })
    }
}

impl BuildNode for NvmeNamespace {
    #[inline]
    fn full_type(&self) -> (DeviceType, DeviceSubType) {
        KIND.full_type
    }

    #[inline]
    fn write(&self, buffer: &mut [u8]) -> Result<usize, BuildError> {
        let fields = joined::<12>(&[
            &self.namespace_identifier.to_le_bytes(),
            &self.ieee_extended_unique_identifier.to_le_bytes(),
        ]);
        write_node(buffer, KIND, self, &fields, Tail::Bytes(&[]))
    }
}
