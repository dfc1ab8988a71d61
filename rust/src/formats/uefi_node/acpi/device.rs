// @generated from proved source. It is not edited.

use crate::formats::uefi_node::error::NodeConversionError;
use crate::formats::uefi_node::read::{NodeKind, NodeValue, RestKind, read_node};
use crate::formats::uefi_node::write::{Tail, joined, write_node};
use crate::formats::uefi_base::little_endian::u32_at;
use crate::formats::uefi_path::build::{BuildError, BuildNode};
use crate::formats::uefi_path::{DevicePathNode, DeviceSubType, DeviceType};

/// A device that numbers of its ACPI object name (UEFI 2.10, 10.3.3).
///
/// | offset | bytes | field |
/// |---|---|---|
/// | 4 | 4 | `hid` |
/// | 8 | 4 | `uid` |
///
/// Offsets are from the start of the node. Numbers are little-endian.
#[derive(Clone, Copy, PartialEq, Eq, Debug)]
pub struct Acpi {
    /// The hardware identifier (`_HID`): an EISA identifier, compressed.
    pub hid: u32,
    /// The unique identifier (`_UID`).
    pub uid: u32,
}

/// The type of the nodes, and how long their data are.
const KIND: NodeKind = NodeKind {
    full_type: (DeviceType::ACPI, DeviceSubType::ACPI),
    size: 8,
    rest: RestKind::Nothing,
};

impl<'a> TryFrom<DevicePathNode<'a>> for Acpi {
    type Error = NodeConversionError;

    #[inline]
    fn try_from(node: DevicePathNode<'a>) -> Result<Acpi, NodeConversionError> {
        read_node(&node, KIND)
    }
}

impl<'a> NodeValue<'a> for Acpi {
    #[inline]
    fn from_data(data: &'a [u8]) -> Option<Acpi> {
        Some(Acpi {
            hid: u32_at(data, 0),
            uid: u32_at(data, 4),
        })
    }
}

impl BuildNode for Acpi {
    #[inline]
    fn full_type(&self) -> (DeviceType, DeviceSubType) {
        KIND.full_type
    }

    #[inline]
    fn write(&self, buffer: &mut [u8]) -> Result<usize, BuildError> {
        let fields = joined::<8>(&[&self.hid.to_le_bytes(), &self.uid.to_le_bytes()]);
        write_node(buffer, KIND, self, &fields, Tail::Bytes(&[]))
    }
}
