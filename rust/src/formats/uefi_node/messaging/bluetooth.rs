// @generated from proved source. It is not edited.

use crate::formats::uefi_node::error::NodeConversionError;
use crate::formats::uefi_node::read::{NodeKind, NodeValue, RestKind, bytes_at, read_node};
use crate::formats::uefi_node::write::{Tail, joined, write_node};
use crate::formats::uefi_path::build::{BuildError, BuildNode};
use crate::formats::uefi_path::{DevicePathNode, DeviceSubType, DeviceType};

/// A Bluetooth device (UEFI 2.10, 10.3.4.26).
///
/// | offset | bytes | field |
/// |---|---|---|
/// | 4 | 6 | `device_address` |
///
/// Offsets are from the start of the node.
#[derive(Clone, Copy, PartialEq, Eq)]
pub struct Bluetooth {
    /// The address of the device.
    pub device_address: [u8; 6],
}

impl core::fmt::Debug for Bluetooth {
    fn fmt(&self, f: &mut core::fmt::Formatter<'_>) -> core::fmt::Result {
        f.debug_struct("Bluetooth")
            .field("device_address", &crate::support::debug::Bytes(&self.device_address))
            .finish()
    }
}

/// The type of the nodes, and how long their data are.
const KIND: NodeKind = NodeKind {
    full_type: (DeviceType::MESSAGING, DeviceSubType::MESSAGING_BLUETOOTH),
    size: 6,
    rest: RestKind::Nothing,
};

impl<'a> TryFrom<DevicePathNode<'a>> for Bluetooth {
    type Error = NodeConversionError;

    #[inline]
    fn try_from(node: DevicePathNode<'a>) -> Result<Bluetooth, NodeConversionError> {
        read_node(&node, KIND)
    }
}

impl<'a> NodeValue<'a> for Bluetooth {
    #[inline]
    fn from_data(data: &'a [u8]) -> Option<Bluetooth> {
        Some(Bluetooth {
            device_address: bytes_at(data, 0),
        })
    }
}

impl BuildNode for Bluetooth {
    #[inline]
    fn full_type(&self) -> (DeviceType, DeviceSubType) {
        KIND.full_type
    }

    #[inline]
    fn write(&self, buffer: &mut [u8]) -> Result<usize, BuildError> {
        let fields = joined::<6>(&[&self.device_address]);
        write_node(buffer, KIND, self, &fields, Tail::Bytes(&[]))
    }
}
