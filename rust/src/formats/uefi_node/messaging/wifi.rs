// @generated from proved source. It is not edited.

use crate::formats::uefi_node::error::NodeConversionError;
use crate::formats::uefi_node::read::{NodeKind, NodeValue, RestKind, bytes_at, read_node};
use crate::formats::uefi_node::write::{Tail, joined, write_node};
use crate::formats::uefi_path::build::{BuildError, BuildNode};
use crate::formats::uefi_path::{DevicePathNode, DeviceSubType, DeviceType};

/// A wireless network (UEFI 2.10, 10.3.4.27).
///
/// | offset | bytes | field |
/// |---|---|---|
/// | 4 | 32 | `ssid` |
///
/// Offsets are from the start of the node.
#[derive(Clone, Copy, PartialEq, Eq)]
pub struct Wifi {
    /// The SSID, with zeros after it.
    pub ssid: [u8; 32],
}

impl core::fmt::Debug for Wifi {
    fn fmt(&self, f: &mut core::fmt::Formatter<'_>) -> core::fmt::Result {
        f.debug_struct("Wifi")
            .field("ssid", &crate::support::debug::Bytes(&self.ssid))
            .finish()
    }
}

/// The type of the nodes, and how long their data are.
const KIND: NodeKind = NodeKind {
    full_type: (DeviceType::MESSAGING, DeviceSubType::MESSAGING_WIFI),
    size: 32,
    rest: RestKind::Nothing,
};

impl<'a> TryFrom<DevicePathNode<'a>> for Wifi {
    type Error = NodeConversionError;

    #[inline]
    fn try_from(node: DevicePathNode<'a>) -> Result<Wifi, NodeConversionError> {
        read_node(&node, KIND)
    }
}

impl<'a> NodeValue<'a> for Wifi {
    #[inline]
    fn from_data(data: &'a [u8]) -> Option<Wifi> {
        Some(Wifi {
            ssid: bytes_at(data, 0),
        })
    }
}

impl BuildNode for Wifi {
    #[inline]
    fn full_type(&self) -> (DeviceType, DeviceSubType) {
        KIND.full_type
    }

    #[inline]
    fn write(&self, buffer: &mut [u8]) -> Result<usize, BuildError> {
        let fields = joined::<32>(&[&self.ssid]);
        write_node(buffer, KIND, self, &fields, Tail::Bytes(&[]))
    }
}
