// @generated from proved source. It is not edited.

use crate::formats::uefi_node::error::NodeConversionError;
use crate::formats::uefi_node::messaging::iscsi_login_options::IscsiLoginOptions;
use crate::formats::uefi_node::read::{NodeKind, NodeValue, RestKind, bytes_at, read_node};
use crate::formats::uefi_node::write::{Tail, joined, write_node};
use crate::formats::uefi_base::little_endian::u16_at;
use crate::formats::uefi_path::build::{BuildError, BuildNode};
use crate::formats::uefi_path::{DevicePathNode, DeviceSubType, DeviceType};

/// An iSCSI target (UEFI 2.10, 10.3.4.21).
///
/// | offset | bytes | field |
/// |---|---|---|
/// | 4 | 2 | `protocol` |
/// | 6 | 2 | `options` |
/// | 8 | 8 | `logical_unit_number` |
/// | 16 | 2 | `target_portal_group_tag` |
/// | 18 | the rest | `iscsi_target_name` |
///
/// Offsets are from the start of the node. Numbers are little-endian.
#[derive(Clone, Copy, PartialEq, Eq)]
pub struct Iscsi<'a> {
    /// The protocol below iSCSI.
    pub protocol: IscsiProtocol,
    /// How to log in.
    pub options: IscsiLoginOptions,
    /// The logical unit.
    pub logical_unit_number: [u8; 8],
    /// The tag of the target portal group.
    pub target_portal_group_tag: u16,
    /// The name of the target.
    pub iscsi_target_name: &'a [u8],
}

impl core::fmt::Debug for Iscsi<'_> {
    fn fmt(&self, f: &mut core::fmt::Formatter<'_>) -> core::fmt::Result {
        f.debug_struct("Iscsi")
            .field("protocol", &self.protocol)
            .field("options", &self.options)
            .field("logical_unit_number", &crate::support::debug::Bytes(&self.logical_unit_number))
            .field("target_portal_group_tag", &self.target_portal_group_tag)
            .field("iscsi_target_name", &crate::support::debug::Bytes(self.iscsi_target_name))
            .finish()
    }
}

/// The type of the nodes, and how long their data are.
const KIND: NodeKind = NodeKind {
    full_type: (DeviceType::MESSAGING, DeviceSubType::MESSAGING_ISCSI),
    size: 14,
    rest: RestKind::Bytes,
};

impl<'a> TryFrom<DevicePathNode<'a>> for Iscsi<'a> {
    type Error = NodeConversionError;

    #[inline]
    fn try_from(node: DevicePathNode<'a>) -> Result<Iscsi<'a>, NodeConversionError> {
        read_node(&node, KIND)
    }
}

impl<'a> NodeValue<'a> for Iscsi<'a> {
    #[inline]
    fn from_data(data: &'a [u8]) -> Option<Iscsi<'a>> {
        let (_, iscsi_target_name) = data.split_at(14);
        Some(Iscsi {
            protocol: IscsiProtocol(u16_at(data, 0)),
            options: IscsiLoginOptions::from_bits_retain(u16_at(data, 2)),
            logical_unit_number: bytes_at(data, 4),
            target_portal_group_tag: u16_at(data, 12),
            iscsi_target_name,
        })
    }
}

impl BuildNode for Iscsi<'_> {
    #[inline]
    fn full_type(&self) -> (DeviceType, DeviceSubType) {
        KIND.full_type
    }

    #[inline]
    fn write(&self, buffer: &mut [u8]) -> Result<usize, BuildError> {
        let fields = joined::<14>(&[
            &self.protocol.0.to_le_bytes(),
            &self.options.bits().to_le_bytes(),
            &self.logical_unit_number,
            &self.target_portal_group_tag.to_le_bytes(),
        ]);
        write_node(
            buffer,
            KIND,
            self,
            &fields,
            Tail::Bytes(self.iscsi_target_name),
        )
    }
}

/// The protocol below iSCSI (UEFI 2.10, 10.3.4.21).
///
/// Numbers without a constant here are valid too.
#[derive(Clone, Copy, PartialEq, Eq, PartialOrd, Ord, Hash, Debug)]
#[repr(transparent)]
pub struct IscsiProtocol(pub u16);

impl IscsiProtocol {
    /// TCP.
    pub const TCP: IscsiProtocol = IscsiProtocol(0);
}
