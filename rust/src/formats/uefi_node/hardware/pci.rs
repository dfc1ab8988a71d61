// @generated from proved source. It is not edited.

use crate::formats::uefi_node::error::NodeConversionError;
use crate::formats::uefi_node::read::{NodeKind, NodeValue, RestKind, read_node};
use crate::formats::uefi_node::write::{Tail, joined, write_node};
use crate::formats::uefi_path::build::{BuildError, BuildNode};
use crate::formats::uefi_path::{DevicePathNode, DeviceSubType, DeviceType};

/// A PCI function (UEFI 2.10, 10.3.2.1).
///
/// | offset | bytes | field |
/// |---|---|---|
/// | 4 | 1 | `function` |
/// | 5 | 1 | `device` |
///
/// Offsets are from the start of the node.
#[derive(Clone, Copy, PartialEq, Eq, Debug)]
pub struct Pci {
    /// The function.
    pub function: u8,
    /// The device.
    pub device: u8,
}

/// The type of the nodes, and how long their data are.
const KIND: NodeKind = NodeKind {
    full_type: (DeviceType::HARDWARE, DeviceSubType::HARDWARE_PCI),
    size: 2,
    rest: RestKind::Nothing,
};

impl<'a> TryFrom<DevicePathNode<'a>> for Pci {
    type Error = NodeConversionError;

    #[inline]
    fn try_from(node: DevicePathNode<'a>) -> Result<Pci, NodeConversionError> {
        read_node(&node, KIND)
    }
}

impl<'a> NodeValue<'a> for Pci {
    #[inline]
    fn from_data(data: &'a [u8]) -> Option<Pci> {
        Some(Pci {
            function: data[0],
            device: data[1],
        })
    }
}

impl BuildNode for Pci {
    #[inline]
    fn full_type(&self) -> (DeviceType, DeviceSubType) {
        KIND.full_type
    }

    #[inline]
    fn write(&self, buffer: &mut [u8]) -> Result<usize, BuildError> {
        let fields = joined::<2>(&[&self.function.to_le_bytes(), &self.device.to_le_bytes()]);
        write_node(buffer, KIND, self, &fields, Tail::Bytes(&[]))
    }
}
