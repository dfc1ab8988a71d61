// @generated from proved source. It is not edited.

use crate::formats::uefi_node::error::NodeConversionError;
use crate::formats::uefi_node::read::{NodeKind, NodeValue, RestKind, read_node};
use crate::formats::uefi_node::write::{Tail, joined, write_node};
use crate::formats::uefi_base::little_endian::u16_at;
use crate::formats::uefi_path::build::{BuildError, BuildNode};
use crate::formats::uefi_path::{DevicePathNode, DeviceSubType, DeviceType};

/// An ATAPI device (UEFI 2.10, 10.3.4.1).
///
/// | offset | bytes | field |
/// |---|---|---|
/// | 4 | 1 | `primary_secondary` |
/// | 5 | 1 | `master_slave` |
/// | 6 | 2 | `logical_unit_number` |
///
/// Offsets are from the start of the node. Numbers are little-endian.
#[derive(Clone, Copy, PartialEq, Eq, Debug)]
pub struct Atapi {
    /// The channel.
    pub primary_secondary: PrimarySecondary,
    /// The device on it.
    pub master_slave: MasterSlave,
    /// The logical unit.
    pub logical_unit_number: u16,
}

/// The type of the nodes, and how long their data are.
const KIND: NodeKind = NodeKind {
    full_type: (DeviceType::MESSAGING, DeviceSubType::MESSAGING_ATAPI),
    size: 4,
    rest: RestKind::Nothing,
};

impl<'a> TryFrom<DevicePathNode<'a>> for Atapi {
    type Error = NodeConversionError;

    #[inline]
    fn try_from(node: DevicePathNode<'a>) -> Result<Atapi, NodeConversionError> {
        read_node(&node, KIND)
    }
}

impl<'a> NodeValue<'a> for Atapi {
    #[inline]
    fn from_data(data: &'a [u8]) -> Option<Atapi> {
        Some(Atapi {
            primary_secondary: PrimarySecondary(data[0]),
            master_slave: MasterSlave(data[1]),
            logical_unit_number: u16_at(data, 2),
        })
    }
}

impl BuildNode for Atapi {
    #[inline]
    fn full_type(&self) -> (DeviceType, DeviceSubType) {
        KIND.full_type
    }

    #[inline]
    fn write(&self, buffer: &mut [u8]) -> Result<usize, BuildError> {
        let fields = joined::<4>(&[
            &self.primary_secondary.0.to_le_bytes(),
            &self.master_slave.0.to_le_bytes(),
            &self.logical_unit_number.to_le_bytes(),
        ]);
        write_node(buffer, KIND, self, &fields, Tail::Bytes(&[]))
    }
}

/// The channel of an ATAPI device (UEFI 2.10, 10.3.4.1).
///
/// Numbers without a constant here are valid too.
#[derive(Clone, Copy, PartialEq, Eq, PartialOrd, Ord, Hash, Debug)]
#[repr(transparent)]
pub struct PrimarySecondary(pub u8);

impl PrimarySecondary {
    /// The primary channel.
    pub const PRIMARY: PrimarySecondary = PrimarySecondary(0);

    /// The secondary channel.
    pub const SECONDARY: PrimarySecondary = PrimarySecondary(1);
}

/// Which of the two devices of a channel an ATAPI device is (UEFI 2.10, 10.3.4.1).
///
/// Numbers without a constant here are valid too.
#[derive(Clone, Copy, PartialEq, Eq, PartialOrd, Ord, Hash, Debug)]
#[repr(transparent)]
pub struct MasterSlave(pub u8);

impl MasterSlave {
    /// The master.
    pub const MASTER: MasterSlave = MasterSlave(0);

    /// The slave.
    pub const SLAVE: MasterSlave = MasterSlave(1);
}
