// @generated from proved source. It is not edited.

use crate::formats::uefi_node::error::NodeConversionError;
use crate::formats::uefi_node::read::{NodeKind, NodeValue, RestKind, read_node};
use crate::formats::uefi_node::write::{Tail, joined, write_node};
use crate::formats::uefi_base::UnalignedSlice;
use crate::formats::uefi_base::little_endian::u16_at;
use crate::formats::uefi_path::build::{BuildError, BuildNode};
use crate::formats::uefi_path::{DevicePathNode, DeviceSubType, DeviceType};

/// A USB device, by its serial number (UEFI 2.10, 10.3.4.7).
///
/// | offset | bytes | field |
/// |---|---|---|
/// | 4 | 2 | `interface_number` |
/// | 6 | 2 | `device_vendor_id` |
/// | 8 | 2 | `device_product_id` |
/// | 10 | 2 a unit | `serial_number` |
///
/// Offsets are from the start of the node. Numbers are little-endian.
#[derive(Clone, Copy, PartialEq, Eq, Debug)]
pub struct UsbWwid<'a> {
    /// The interface of the device.
    pub interface_number: u16,
    /// The vendor.
    pub device_vendor_id: u16,
    /// The product.
    pub device_product_id: u16,
    /// The serial number, without a NUL: its last 64 units or fewer.
    pub serial_number: UnalignedSlice<'a>,
}

/// The type of the nodes, and how long their data are.
const KIND: NodeKind = NodeKind {
    full_type: (DeviceType::MESSAGING, DeviceSubType::MESSAGING_USB_WWID),
    size: 6,
    rest: RestKind::Units,
};

impl<'a> TryFrom<DevicePathNode<'a>> for UsbWwid<'a> {
    type Error = NodeConversionError;

    #[inline]
    fn try_from(node: DevicePathNode<'a>) -> Result<UsbWwid<'a>, NodeConversionError> {
        read_node(&node, KIND)
    }
}

impl<'a> NodeValue<'a> for UsbWwid<'a> {
    #[inline]
    fn from_data(data: &'a [u8]) -> Option<UsbWwid<'a>> {
        let (_, serial_number) = data.split_at(6);
        Some(UsbWwid {
            interface_number: u16_at(data, 0),
            device_vendor_id: u16_at(data, 2),
            device_product_id: u16_at(data, 4),
            serial_number: UnalignedSlice::new(serial_number),
        })
    }
}

impl BuildNode for UsbWwid<'_> {
    #[inline]
    fn full_type(&self) -> (DeviceType, DeviceSubType) {
        KIND.full_type
    }

    #[inline]
    fn write(&self, buffer: &mut [u8]) -> Result<usize, BuildError> {
        let fields = joined::<6>(&[
            &self.interface_number.to_le_bytes(),
            &self.device_vendor_id.to_le_bytes(),
            &self.device_product_id.to_le_bytes(),
        ]);
        write_node(buffer, KIND, self, &fields, Tail::Units(self.serial_number))
    }
}
