// @generated from proved source. It is not edited.

use crate::formats::uefi_node::acpi::adr_list::AdrList;
use crate::formats::uefi_node::error::NodeConversionError;
use crate::formats::uefi_node::read::{NodeKind, NodeValue, RestKind, read_node};
use crate::formats::uefi_node::write::{Tail, write_node};
use crate::formats::uefi_path::build::{BuildError, BuildNode};
use crate::formats::uefi_path::{DevicePathNode, DeviceSubType, DeviceType};

/// Video outputs, by the addresses (`_ADR`) of their ACPI objects (UEFI 2.10, 10.3.3.1).
///
/// | offset | bytes | field |
/// |---|---|---|
/// | 4 | 4 each | `adr` |
///
/// Offsets are from the start of the node.
#[derive(Clone, Copy, PartialEq, Eq, Debug)]
pub struct Adr<'a> {
    /// The addresses: at least one.
    pub adr: AdrList<'a>,
}

/// The type of the nodes, and how long their data are.
const KIND: NodeKind = NodeKind {
    full_type: (DeviceType::ACPI, DeviceSubType::ACPI_ADR),
    size: 0,
    rest: RestKind::Numbers,
};

impl<'a> TryFrom<DevicePathNode<'a>> for Adr<'a> {
    type Error = NodeConversionError;

    #[inline]
    fn try_from(node: DevicePathNode<'a>) -> Result<Adr<'a>, NodeConversionError> {
        read_node(&node, KIND)
    }
}

impl<'a> NodeValue<'a> for Adr<'a> {
    #[inline]
    fn from_data(data: &'a [u8]) -> Option<Adr<'a>> {
        Some(Adr {
            adr: AdrList::new_unchecked(data),
        })
    }
}

impl BuildNode for Adr<'_> {
    #[inline]
    fn full_type(&self) -> (DeviceType, DeviceSubType) {
        KIND.full_type
    }

    #[inline]
    fn write(&self, buffer: &mut [u8]) -> Result<usize, BuildError> {
        write_node(buffer, KIND, self, &[], Tail::Bytes(self.adr.as_bytes()))
    }
}
