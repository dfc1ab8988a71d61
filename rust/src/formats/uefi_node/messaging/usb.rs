// @generated from proved source. It is not edited.

use crate::formats::uefi_node::error::NodeConversionError;
use crate::formats::uefi_node::read::{NodeKind, NodeValue, RestKind, read_node};
use crate::formats::uefi_node::write::{Tail, joined, write_node};
use crate::formats::uefi_path::build::{BuildError, BuildNode};
use crate::formats::uefi_path::{DevicePathNode, DeviceSubType, DeviceType};

/// A USB device, by its port (UEFI 2.10, 10.3.4.5).
///
/// | offset | bytes | field |
/// |---|---|---|
/// | 4 | 1 | `parent_port_number` |
/// | 5 | 1 | `interface` |
///
/// Offsets are from the start of the node.
#[derive(Clone, Copy, PartialEq, Eq, Debug)]
pub struct Usb {
    /// The port of the hub.
    pub parent_port_number: u8,
    /// The interface of the device.
    pub interface: u8,
}

/// The type of the nodes, and how long their data are.
const KIND: NodeKind = NodeKind {
    full_type: (DeviceType::MESSAGING, DeviceSubType::MESSAGING_USB),
    size: 2,
    rest: RestKind::Nothing,
};

impl<'a> TryFrom<DevicePathNode<'a>> for Usb {
    type Error = NodeConversionError;

    #[inline]
    fn try_from(node: DevicePathNode<'a>) -> Result<Usb, NodeConversionError> {
        read_node(&node, KIND)
    }
}

impl<'a> NodeValue<'a> for Usb {
    #[inline]
    fn from_data(data: &'a [u8]) -> Option<Usb> {
        Some(Usb {
            parent_port_number: data[0],
            interface: data[1],
        })
    }
}

impl BuildNode for Usb {
    #[inline]
    fn full_type(&self) -> (DeviceType, DeviceSubType) {
        KIND.full_type
    }

    #[inline]
    fn write(&self, buffer: &mut [u8]) -> Result<usize, BuildError> {
        let fields = joined::<2>(&[
            &self.parent_port_number.to_le_bytes(),
            &self.interface.to_le_bytes(),
        ]);
        write_node(buffer, KIND, self, &fields, Tail::Bytes(&[]))
    }
}
