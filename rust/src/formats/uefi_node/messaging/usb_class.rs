// @generated from proved source. It is not edited.

use crate::formats::uefi_node::error::NodeConversionError;
use crate::formats::uefi_node::read::{NodeKind, NodeValue, RestKind, read_node};
use crate::formats::uefi_node::write::{Tail, joined, write_node};
use crate::formats::uefi_base::little_endian::u16_at;
use crate::formats::uefi_path::build::{BuildError, BuildNode};
use crate::formats::uefi_path::{DevicePathNode, DeviceSubType, DeviceType};

/// USB devices of a class (UEFI 2.10, 10.3.4.9).
///
/// | offset | bytes | field |
/// |---|---|---|
/// | 4 | 2 | `vendor_id` |
/// | 6 | 2 | `product_id` |
/// | 8 | 1 | `device_class` |
/// | 9 | 1 | `device_subclass` |
/// | 10 | 1 | `device_protocol` |
///
/// Offsets are from the start of the node. Numbers are little-endian.
#[derive(Clone, Copy, PartialEq, Eq, Debug)]
pub struct UsbClass {
    /// The vendor, or 0xffff for any.
    pub vendor_id: u16,
    /// The product, or 0xffff for any.
    pub product_id: u16,
    /// The class, or 0xff for any.
    pub device_class: u8,
    /// The subclass, or 0xff for any.
    pub device_subclass: u8,
    /// The protocol, or 0xff for any.
    pub device_protocol: u8,
}

/// The type of the nodes, and how long their data are.
const KIND: NodeKind = NodeKind {
    full_type: (DeviceType::MESSAGING, DeviceSubType::MESSAGING_USB_CLASS),
    size: 7,
    rest: RestKind::Nothing,
};

impl<'a> TryFrom<DevicePathNode<'a>> for UsbClass {
    type Error = NodeConversionError;

    #[inline]
    fn try_from(node: DevicePathNode<'a>) -> Result<UsbClass, NodeConversionError> {
        read_node(&node, KIND)
    }
}

impl<'a> NodeValue<'a> for UsbClass {
    #[inline]
    fn from_data(data: &'a [u8]) -> Option<UsbClass> {
        Some(UsbClass {
            vendor_id: u16_at(data, 0),
            product_id: u16_at(data, 2),
            device_class: data[4],
            device_subclass: data[5],
            device_protocol: data[6],
        })
    }
}

impl BuildNode for UsbClass {
    #[inline]
    fn full_type(&self) -> (DeviceType, DeviceSubType) {
        KIND.full_type
    }

    #[inline]
    fn write(&self, buffer: &mut [u8]) -> Result<usize, BuildError> {
        let fields = joined::<7>(&[
            &self.vendor_id.to_le_bytes(),
            &self.product_id.to_le_bytes(),
            &self.device_class.to_le_bytes(),
            &self.device_subclass.to_le_bytes(),
            &self.device_protocol.to_le_bytes(),
        ]);
        write_node(buffer, KIND, self, &fields, Tail::Bytes(&[]))
    }
}
