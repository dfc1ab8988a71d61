// @generated from proved source. It is not edited.

use crate::formats::uefi_node::error::NodeConversionError;
use crate::formats::uefi_node::messaging::infiniband_resource_flags::InfinibandResourceFlags;
use crate::formats::uefi_node::read::{NodeKind, NodeValue, RestKind, bytes_at, read_node};
use crate::formats::uefi_node::write::{Tail, joined, write_node};
use crate::formats::uefi_base::little_endian::{u32_at, u64_at};
use crate::formats::uefi_path::build::{BuildError, BuildNode};
use crate::formats::uefi_path::{DevicePathNode, DeviceSubType, DeviceType};

/// An InfiniBand device (UEFI 2.10, 10.3.4.15).
///
/// | offset | bytes | field |
/// |---|---|---|
/// | 4 | 4 | `resource_flags` |
/// | 8 | 16 | `port_gid` |
/// | 24 | 8 | `ioc_guid_or_service_id` |
/// | 32 | 8 | `target_port_id` |
/// | 40 | 8 | `device_id` |
///
/// Offsets are from the start of the node. Numbers are little-endian.
#[derive(Clone, Copy, PartialEq, Eq)]
pub struct Infiniband {
    /// Which resource it is.
    pub resource_flags: InfinibandResourceFlags,
    /// The global identifier of the port.
    pub port_gid: [u8; 16],
    /// The GUID of the I/O controller, or the identifier of the service.
    pub ioc_guid_or_service_id: u64,
    /// The identifier of the target port.
    pub target_port_id: u64,
    /// The identifier of the device.
    pub device_id: u64,
}

impl core::fmt::Debug for Infiniband {
    fn fmt(&self, f: &mut core::fmt::Formatter<'_>) -> core::fmt::Result {
        f.debug_struct("Infiniband")
            .field("resource_flags", &self.resource_flags)
            .field("port_gid", &crate::support::debug::Bytes(&self.port_gid))
            .field("ioc_guid_or_service_id", &self.ioc_guid_or_service_id)
            .field("target_port_id", &self.target_port_id)
            .field("device_id", &self.device_id)
            .finish()
    }
}

/// The type of the nodes, and how long their data are.
const KIND: NodeKind = NodeKind {
    full_type: (DeviceType::MESSAGING, DeviceSubType::MESSAGING_INFINIBAND),
    size: 44,
    rest: RestKind::Nothing,
};

impl<'a> TryFrom<DevicePathNode<'a>> for Infiniband {
    type Error = NodeConversionError;

    #[inline]
    fn try_from(node: DevicePathNode<'a>) -> Result<Infiniband, NodeConversionError> {
        read_node(&node, KIND)
    }
}

impl<'a> NodeValue<'a> for Infiniband {
    #[inline]
    fn from_data(data: &'a [u8]) -> Option<Infiniband> {
        Some(Infiniband {
            resource_flags: InfinibandResourceFlags::from_bits_retain(u32_at(data, 0)),
            port_gid: bytes_at(data, 4),
            ioc_guid_or_service_id: u64_at(data, 20),
            target_port_id: u64_at(data, 28),
            device_id: u64_at(data, 36),
        })
    }
}

impl BuildNode for Infiniband {
    #[inline]
    fn full_type(&self) -> (DeviceType, DeviceSubType) {
        KIND.full_type
    }

    #[inline]
    fn write(&self, buffer: &mut [u8]) -> Result<usize, BuildError> {
        let fields = joined::<44>(&[
            &self.resource_flags.bits().to_le_bytes(),
            &self.port_gid,
            &self.ioc_guid_or_service_id.to_le_bytes(),
            &self.target_port_id.to_le_bytes(),
            &self.device_id.to_le_bytes(),
        ]);
        write_node(buffer, KIND, self, &fields, Tail::Bytes(&[]))
    }
}
