// @generated from proved source. It is not edited.

use crate::formats::uefi_node::error::NodeConversionError;
use crate::formats::uefi_node::read::{NodeKind, NodeValue, RestKind, bytes_at, read_node};
use crate::formats::uefi_node::write::{Tail, joined, write_node};
use crate::formats::uefi_path::build::{BuildError, BuildNode};
use crate::formats::uefi_path::{DevicePathNode, DeviceSubType, DeviceType};

/// A Bluetooth Low Energy device (UEFI 2.10, 10.3.4.29).
///
/// | offset | bytes | field |
/// |---|---|---|
/// | 4 | 6 | `device_address` |
/// | 10 | 1 | `address_type` |
///
/// Offsets are from the start of the node.
#[derive(Clone, Copy, PartialEq, Eq)]
pub struct BluetoothLe {
    /// The address of the device.
    pub device_address: [u8; 6],
    /// The type of the address.
    pub address_type: BluetoothLeAddressType,
}

impl core::fmt::Debug for BluetoothLe {
    fn fmt(&self, f: &mut core::fmt::Formatter<'_>) -> core::fmt::Result {
        f.debug_struct("BluetoothLe")
            .field("device_address", &crate::support::debug::Bytes(&self.device_address))
            .field("address_type", &self.address_type)
            .finish()
    }
}

/// The type of the nodes, and how long their data are.
const KIND: NodeKind = NodeKind {
    full_type: (DeviceType::MESSAGING, DeviceSubType::MESSAGING_BLUETOOTH_LE),
    size: 7,
    rest: RestKind::Nothing,
};

impl<'a> TryFrom<DevicePathNode<'a>> for BluetoothLe {
    type Error = NodeConversionError;

    #[inline]
    fn try_from(node: DevicePathNode<'a>) -> Result<BluetoothLe, NodeConversionError> {
        read_node(&node, KIND)
    }
}

impl<'a> NodeValue<'a> for BluetoothLe {
    #[inline]
    fn from_data(data: &'a [u8]) -> Option<BluetoothLe> {
        Some(BluetoothLe {
            device_address: bytes_at(data, 0),
            address_type: BluetoothLeAddressType(data[6]),
        })
    }
}

impl BuildNode for BluetoothLe {
    #[inline]
    fn full_type(&self) -> (DeviceType, DeviceSubType) {
        KIND.full_type
    }

    #[inline]
    fn write(&self, buffer: &mut [u8]) -> Result<usize, BuildError> {
        let fields = joined::<7>(&[&self.device_address, &self.address_type.0.to_le_bytes()]);
        write_node(buffer, KIND, self, &fields, Tail::Bytes(&[]))
    }
}

/// The type of a Bluetooth Low Energy address (UEFI 2.10, 10.3.4.29).
///
/// Numbers without a constant here are valid too.
#[derive(Clone, Copy, PartialEq, Eq, PartialOrd, Ord, Hash, Debug)]
#[repr(transparent)]
pub struct BluetoothLeAddressType(pub u8);

impl BluetoothLeAddressType {
    /// A public device address.
    pub const PUBLIC: BluetoothLeAddressType = BluetoothLeAddressType(0);

    /// A random device address.
    pub const RANDOM: BluetoothLeAddressType = BluetoothLeAddressType(1);
}
