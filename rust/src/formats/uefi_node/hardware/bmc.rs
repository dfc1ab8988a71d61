// @generated from proved source. It is not edited.

use crate::formats::uefi_node::error::NodeConversionError;
use crate::formats::uefi_node::read::{NodeKind, NodeValue, RestKind, read_node};
use crate::formats::uefi_node::write::{Tail, joined, write_node};
use crate::formats::uefi_base::little_endian::u64_at;
use crate::formats::uefi_path::build::{BuildError, BuildNode};
use crate::formats::uefi_path::{DevicePathNode, DeviceSubType, DeviceType};

/// A baseboard management controller (BMC) (UEFI 2.10, 10.3.2.6).
///
/// | offset | bytes | field |
/// |---|---|---|
/// | 4 | 1 | `interface_type` |
/// | 5 | 8 | `base_address` |
///
/// Offsets are from the start of the node. Numbers are little-endian.
#[derive(Clone, Copy, PartialEq, Eq, Debug)]
pub struct Bmc {
    /// How the system talks to it.
    pub interface_type: BmcInterfaceType,
    /// The address of its registers. The lowest bit says that they are I/O ports rather than
    /// memory.
    pub base_address: u64,
}

/// The type of the nodes, and how long their data are.
const KIND: NodeKind = NodeKind {
    full_type: (DeviceType::HARDWARE, DeviceSubType::HARDWARE_BMC),
    size: 9,
    rest: RestKind::Nothing,
};

impl<'a> TryFrom<DevicePathNode<'a>> for Bmc {
    type Error = NodeConversionError;

    #[inline]
    fn try_from(node: DevicePathNode<'a>) -> Result<Bmc, NodeConversionError> {
        read_node(&node, KIND)
    }
}

impl<'a> NodeValue<'a> for Bmc {
    #[inline]
    fn from_data(data: &'a [u8]) -> Option<Bmc> {
        Some(Bmc {
            interface_type: BmcInterfaceType(data[0]),
            base_address: u64_at(data, 1),
        })
    }
}

impl BuildNode for Bmc {
    #[inline]
    fn full_type(&self) -> (DeviceType, DeviceSubType) {
        KIND.full_type
    }

    #[inline]
    fn write(&self, buffer: &mut [u8]) -> Result<usize, BuildError> {
        let fields = joined::<9>(&[
            &self.interface_type.0.to_le_bytes(),
            &self.base_address.to_le_bytes(),
        ]);
        write_node(buffer, KIND, self, &fields, Tail::Bytes(&[]))
    }
}

/// How the system talks to a baseboard management controller (UEFI 2.10, 10.3.2.6).
///
/// Numbers without a constant here are valid too.
#[derive(Clone, Copy, PartialEq, Eq, PartialOrd, Ord, Hash, Debug)]
#[repr(transparent)]
pub struct BmcInterfaceType(pub u8);

impl BmcInterfaceType {
    /// Unknown.
    pub const UNKNOWN: BmcInterfaceType = BmcInterfaceType(0);

    /// A keyboard controller style interface (KCS).
    pub const KEYBOARD_CONTROLLER_STYLE: BmcInterfaceType = BmcInterfaceType(1);

    /// A server management interface chip (SMIC).
    pub const SERVER_MANAGEMENT_INTERFACE_CHIP: BmcInterfaceType = BmcInterfaceType(2);

    /// Block transfer (BT).
    pub const BLOCK_TRANSFER: BmcInterfaceType = BmcInterfaceType(3);
}
