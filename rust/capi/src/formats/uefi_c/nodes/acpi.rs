// @generated from proved source. It is not edited.

use core::mem::MaybeUninit;
use crate::bytes::Buffer;

use crate::formats::uefi_c::nodes::typed::{fields_of, joined, write_parts};
use crate::formats::uefi_c::path::UefiNode;
use crate::formats::uefi_c::status::{self, UefiStatus};
use crate::formats::uefi_base::little_endian::u32_at;
use crate::formats::uefi_path::{DeviceSubType, DeviceType};

/// A device that numbers of its ACPI object name (UEFI 2.10, 10.3.3).
#[derive(Clone, Copy, Debug)]
#[repr(C)]
pub struct UefiAcpiNode {
    /// The hardware identifier (`_HID`): an EISA identifier, compressed.
    pub hid: u32,
    /// The unique identifier (`_UID`).
    pub uid: u32,
}

/// Reads the fields of the node of an ACPI device.
///
/// If it has another type or subtype, or its data have another length, the status is that the data
/// are another structure, and `out` stays as it was.
#[unsafe(no_mangle)]
pub extern "C" fn uefi_acpi_node(node: &UefiNode<'_>, out: &mut MaybeUninit<UefiAcpiNode>) -> UefiStatus {
    let node_data = node.data.as_slice();
    let Some(fields) = fields_of::<8>(node, node_data, DeviceType::ACPI, DeviceSubType::ACPI) else {
        return status::OTHER_DATA;
    };
    out.write(UefiAcpiNode {
        hid: u32_at(fields, 0),
        uid: u32_at(fields, 4),
    });
    status::OK
}

/// Writes the node of an ACPI device to the beginning of the buffer, and sets `size` to its
/// length; the bytes after it stay as they were.
///
/// If the buffer is too small, all bytes stay as they were, and `size` is the length that it needs.
#[unsafe(no_mangle)]
pub extern "C" fn uefi_write_acpi_node(
    buffer: Buffer<'_>,
    node: &UefiAcpiNode,
    size: &mut MaybeUninit<usize>,
) -> UefiStatus {
    let buffer = buffer.into_slice();
    let fields = joined::<8>(&[&node.hid.to_le_bytes(), &node.uid.to_le_bytes()]);
    let (status, length) = write_parts(buffer, DeviceType::ACPI, DeviceSubType::ACPI, &fields, &[]);
    size.write(length);
    status
}
