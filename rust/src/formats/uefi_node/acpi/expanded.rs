// @generated from proved source. It is not edited.

use crate::formats::uefi_node::error::NodeConversionError;
use crate::formats::uefi_node::read::{NodeKind, NodeValue, RestKind, read_node};
use crate::formats::uefi_node::strings::{is_without_nul, three_strings};
use crate::formats::uefi_node::write::{Tail, joined, write_node};
use crate::formats::uefi_base::little_endian::u32_at;
use crate::formats::uefi_path::build::{BuildError, BuildNode};
use crate::formats::uefi_path::{DevicePathNode, DeviceSubType, DeviceType};

/// A device that numbers and strings of its ACPI object name (UEFI 2.10, 10.3.3).
///
/// | offset | bytes | field |
/// |---|---|---|
/// | 4 | 4 | `hid` |
/// | 8 | 4 | `uid` |
/// | 12 | 4 | `cid` |
/// | 16 | | `hid_str`, `uid_str` and `cid_str`, each with a NUL after it |
///
/// Offsets are from the start of the node. Numbers are little-endian.
///
/// Writing fails with [`BuildError::Form`] if a string has a NUL.
#[derive(Clone, Copy, PartialEq, Eq)]
pub struct Expanded<'a> {
    /// The hardware identifier (`_HID`): an EISA identifier, compressed.
    pub hid: u32,
    /// The unique identifier (`_UID`).
    pub uid: u32,
    /// The identifier of a compatible device (`_CID`): an EISA identifier, compressed.
    pub cid: u32,
    /// The hardware identifier as a string, without its NUL. If it is empty, `hid` counts.
    pub hid_str: &'a [u8],
    /// The unique identifier as a string, without its NUL. If it is empty, `uid` counts.
    pub uid_str: &'a [u8],
    /// The identifier of a compatible device as a string, without its NUL. If it is empty, `cid`
    /// counts.
    pub cid_str: &'a [u8],
}

impl core::fmt::Debug for Expanded<'_> {
    fn fmt(&self, f: &mut core::fmt::Formatter<'_>) -> core::fmt::Result {
        f.debug_struct("Expanded")
            .field("hid", &self.hid)
            .field("uid", &self.uid)
            .field("cid", &self.cid)
            .field("hid_str", &crate::support::debug::Bytes(self.hid_str))
            .field("uid_str", &crate::support::debug::Bytes(self.uid_str))
            .field("cid_str", &crate::support::debug::Bytes(self.cid_str))
            .finish()
    }
}

impl Expanded<'_> {
    /// Returns whether no string has a NUL.
    #[inline]
    fn is_valid(&self) -> bool {
        is_without_nul(self.hid_str) && is_without_nul(self.uid_str) && is_without_nul(self.cid_str)
    }
}

/// The type of the nodes, and how long their data are.
const KIND: NodeKind = NodeKind {
    full_type: (DeviceType::ACPI, DeviceSubType::ACPI_EXPANDED),
    size: 12,
    rest: RestKind::Bytes,
};

impl<'a> TryFrom<DevicePathNode<'a>> for Expanded<'a> {
    type Error = NodeConversionError;

    #[inline]
    fn try_from(node: DevicePathNode<'a>) -> Result<Expanded<'a>, NodeConversionError> {
        read_node(&node, KIND)
    }
}

impl<'a> NodeValue<'a> for Expanded<'a> {
    #[inline]
    fn from_data(data: &'a [u8]) -> Option<Expanded<'a>> {
        let (_, strings) = data.split_at(12);
        let Some((hid_str, uid_str, cid_str)) = three_strings(strings) else {
            return None;
        };
        Some(Expanded {
            hid: u32_at(data, 0),
            uid: u32_at(data, 4),
            cid: u32_at(data, 8),
            hid_str,
            uid_str,
            cid_str,
        })
    }
}

impl BuildNode for Expanded<'_> {
    #[inline]
    fn full_type(&self) -> (DeviceType, DeviceSubType) {
        KIND.full_type
    }

    #[inline]
    fn write(&self, buffer: &mut [u8]) -> Result<usize, BuildError> {
        if !self.is_valid() {
            return Err(BuildError::Form);
        }
        let fields = joined::<12>(&[
            &self.hid.to_le_bytes(),
            &self.uid.to_le_bytes(),
            &self.cid.to_le_bytes(),
        ]);
        let strings: [&[u8]; 6] = [self.hid_str, &[0], self.uid_str, &[0], self.cid_str, &[0]];
        write_node(buffer, KIND, self, &fields, Tail::Parts(&strings))
    }
}
