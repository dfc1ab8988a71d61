// @generated from proved source. It is not edited.

use crate::formats::uefi_node::error::NodeConversionError;
use crate::formats::uefi_node::read::{NodeKind, NodeValue, RestKind, read_node};
use crate::formats::uefi_node::write::{Tail, joined, write_node};
use crate::formats::uefi_base::little_endian::u16_at;
use crate::formats::uefi_path::build::{BuildError, BuildNode};
use crate::formats::uefi_path::{DevicePathNode, DeviceSubType, DeviceType};

/// A boot device of the BIOS Boot Specification (UEFI 2.10, 10.3.6).
///
/// | offset | bytes | field |
/// |---|---|---|
/// | 4 | 2 | `device_type` |
/// | 6 | 2 | `status_flag` |
/// | 8 | the rest | `description_string` |
///
/// Offsets are from the start of the node. Numbers are little-endian.
#[derive(Clone, Copy, PartialEq, Eq)]
pub struct BootSpecification<'a> {
    /// The type of the device.
    pub device_type: BootSpecificationDeviceType,
    /// The status of the device, as the BIOS Boot Specification has it.
    pub status_flag: u16,
    /// The description of the device: ASCII with a NUL at its end.
    pub description_string: &'a [u8],
}

impl core::fmt::Debug for BootSpecification<'_> {
    fn fmt(&self, f: &mut core::fmt::Formatter<'_>) -> core::fmt::Result {
        f.debug_struct("BootSpecification")
            .field("device_type", &self.device_type)
            .field("status_flag", &self.status_flag)
            .field("description_string", &crate::support::debug::Bytes(self.description_string))
            .finish()
    }
}

/// The type of the nodes, and how long their data are.
const KIND: NodeKind = NodeKind {
    full_type: (
        DeviceType::BIOS_BOOT_SPEC,
        DeviceSubType::BIOS_BOOT_SPECIFICATION,
    ),
    size: 4,
    rest: RestKind::Bytes,
};

impl<'a> TryFrom<DevicePathNode<'a>> for BootSpecification<'a> {
    type Error = NodeConversionError;

    #[inline]
    fn try_from(node: DevicePathNode<'a>) -> Result<BootSpecification<'a>, NodeConversionError> {
        read_node(&node, KIND)
    }
}

impl<'a> NodeValue<'a> for BootSpecification<'a> {
    #[inline]
    fn from_data(data: &'a [u8]) -> Option<BootSpecification<'a>> {
        let (_, description_string) = data.split_at(4);
        Some(BootSpecification {
            device_type: BootSpecificationDeviceType(u16_at(data, 0)),
            status_flag: u16_at(data, 2),
            description_string,
        })
    }
}

impl BuildNode for BootSpecification<'_> {
    #[inline]
    fn full_type(&self) -> (DeviceType, DeviceSubType) {
        KIND.full_type
    }

    #[inline]
    fn write(&self, buffer: &mut [u8]) -> Result<usize, BuildError> {
        let fields = joined::<4>(&[
            &self.device_type.0.to_le_bytes(),
            &self.status_flag.to_le_bytes(),
        ]);
        write_node(
            buffer,
            KIND,
            self,
            &fields,
            Tail::Bytes(self.description_string),
        )
    }
}

/// The type of a boot device (UEFI 2.10, 10.3.6).
///
/// Numbers without a constant here are valid too.
#[derive(Clone, Copy, PartialEq, Eq, PartialOrd, Ord, Hash, Debug)]
#[repr(transparent)]
pub struct BootSpecificationDeviceType(pub u16);

impl BootSpecificationDeviceType {
    /// A floppy drive.
    pub const FLOPPY: BootSpecificationDeviceType = BootSpecificationDeviceType(1);

    /// A hard drive.
    pub const HARD_DRIVE: BootSpecificationDeviceType = BootSpecificationDeviceType(2);

    /// A CD-ROM drive.
    pub const CD_ROM: BootSpecificationDeviceType = BootSpecificationDeviceType(3);

    /// A PCMCIA device.
    pub const PCMCIA: BootSpecificationDeviceType = BootSpecificationDeviceType(4);

    /// A USB device.
    pub const USB: BootSpecificationDeviceType = BootSpecificationDeviceType(5);

    /// A network interface on the board.
    pub const EMBEDDED_NETWORK: BootSpecificationDeviceType = BootSpecificationDeviceType(6);

    /// A device with a bootstrap entry vector (BEV).
    pub const BOOTSTRAP_ENTRY_VECTOR: BootSpecificationDeviceType = BootSpecificationDeviceType(
        0x80,
    );

    /// Unknown.
    pub const UNKNOWN: BootSpecificationDeviceType = BootSpecificationDeviceType(0xff);
}
