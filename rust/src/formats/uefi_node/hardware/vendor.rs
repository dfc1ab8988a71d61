// @generated from proved source. It is not edited.

use crate::formats::uefi_node::error::NodeConversionError;
use crate::formats::uefi_node::read::{NodeKind, NodeValue, RestKind, bytes_at, read_node};
use crate::formats::uefi_node::write::{Tail, joined, write_node};
use crate::formats::uefi_base::Guid;
use crate::formats::uefi_path::build::{BuildError, BuildNode};
use crate::formats::uefi_path::{DevicePathNode, DeviceSubType, DeviceType};

/// A device that its vendor describes (UEFI 2.10, 10.3.2.4).
///
/// | offset | bytes | field |
/// |---|---|---|
/// | 4 | 16 | `vendor_guid` |
/// | 20 | the rest | `vendor_defined_data` |
///
/// Offsets are from the start of the node.
#[derive(Clone, Copy, PartialEq, Eq)]
pub struct Vendor<'a> {
    /// The GUID that says what the data are.
    pub vendor_guid: Guid,
    /// The data of the vendor.
    pub vendor_defined_data: &'a [u8],
}

impl core::fmt::Debug for Vendor<'_> {
    fn fmt(&self, f: &mut core::fmt::Formatter<'_>) -> core::fmt::Result {
        f.debug_struct("Vendor")
            .field("vendor_guid", &self.vendor_guid)
            .field("vendor_defined_data", &crate::support::debug::Bytes(self.vendor_defined_data))
            .finish()
    }
}

/// The type of the nodes, and how long their data are.
const KIND: NodeKind = NodeKind {
    full_type: (DeviceType::HARDWARE, DeviceSubType::HARDWARE_VENDOR),
    size: 16,
    rest: RestKind::Bytes,
};

impl<'a> TryFrom<DevicePathNode<'a>> for Vendor<'a> {
    type Error = NodeConversionError;

    #[inline]
    fn try_from(node: DevicePathNode<'a>) -> Result<Vendor<'a>, NodeConversionError> {
        read_node(&node, KIND)
    }
}

impl<'a> NodeValue<'a> for Vendor<'a> {
    #[inline]
    fn from_data(data: &'a [u8]) -> Option<Vendor<'a>> {
        let (_, vendor_defined_data) = data.split_at(16);
        Some(Vendor {
            vendor_guid: Guid(bytes_at(data, 0)),
            vendor_defined_data,
        })
    }
}

impl BuildNode for Vendor<'_> {
    #[inline]
    fn full_type(&self) -> (DeviceType, DeviceSubType) {
        KIND.full_type
    }

    #[inline]
    fn write(&self, buffer: &mut [u8]) -> Result<usize, BuildError> {
        let fields = joined::<16>(&[&self.vendor_guid.to_bytes()]);
        write_node(
            buffer,
            KIND,
            self,
            &fields,
            Tail::Bytes(self.vendor_defined_data),
        )
    }
}
