// @generated from proved source. It is not edited.

use crate::formats::uefi_node::error::NodeConversionError;
use crate::formats::uefi_node::read::{NodeKind, NodeValue, RestKind, read_node};
use crate::formats::uefi_node::write::{Tail, write_node};
use crate::formats::uefi_base::UnalignedSlice;
use crate::formats::uefi_path::build::{BuildError, BuildNode};
use crate::formats::uefi_path::{DevicePathNode, DeviceSubType, DeviceType};

/// The path of a file (UEFI 2.10, 10.3.5.4).
///
/// | offset | bytes | field |
/// |---|---|---|
/// | 4 | 2 a unit | `path_name` |
///
/// Offsets are from the start of the node. Numbers are little-endian.
#[derive(Clone, Copy, PartialEq, Eq, Debug)]
pub struct FilePath<'a> {
    /// The units of the path, with the NUL that ends it. Any units are accepted.
    pub path_name: UnalignedSlice<'a>,
}

/// The type of the nodes, and how long their data are.
const KIND: NodeKind = NodeKind {
    full_type: (DeviceType::MEDIA, DeviceSubType::MEDIA_FILE_PATH),
    size: 0,
    rest: RestKind::Units,
};

impl<'a> TryFrom<DevicePathNode<'a>> for FilePath<'a> {
    type Error = NodeConversionError;

    #[inline]
    fn try_from(node: DevicePathNode<'a>) -> Result<FilePath<'a>, NodeConversionError> {
        read_node(&node, KIND)
    }
}

impl<'a> NodeValue<'a> for FilePath<'a> {
    #[inline]
    fn from_data(data: &'a [u8]) -> Option<FilePath<'a>> {
        Some(FilePath {
            path_name: UnalignedSlice::new(data),
        })
    }
}

impl BuildNode for FilePath<'_> {
    #[inline]
    fn full_type(&self) -> (DeviceType, DeviceSubType) {
        KIND.full_type
    }

    #[inline]
    fn write(&self, buffer: &mut [u8]) -> Result<usize, BuildError> {
        write_node(buffer, KIND, self, &[], Tail::Units(self.path_name))
    }
}
