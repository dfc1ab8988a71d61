// @generated from proved source. It is not edited.

use core::mem::MaybeUninit;
use crate::bytes::Buffer;

use crate::formats::uefi_c::nodes::typed::{fields_of, joined, write_parts};
use crate::formats::uefi_c::path::UefiNode;
use crate::formats::uefi_c::status::{self, UefiStatus};
use crate::formats::uefi_base::little_endian::u16_at;
use crate::formats::uefi_path::{DeviceSubType, DeviceType};

/// A SATA device (UEFI 2.10, 10.3.4.6).
#[derive(Clone, Copy, Debug)]
#[repr(C)]
pub struct UefiSataNode {
    /// The port of the host bus adapter.
    pub hba_port_number: u16,
    /// The port of the multiplier, or 0xffff if there is none.
    pub port_multiplier_port_number: u16,
    /// The logical unit.
    pub logical_unit_number: u16,
}

/// Reads the fields of the node of a SATA device.
///
/// If it has another type or subtype, or its data have another length, the status is that the data
/// are another structure, and `out` stays as it was.
#[unsafe(no_mangle)]
pub extern "C" fn uefi_sata_node(node: &UefiNode<'_>, out: &mut MaybeUninit<UefiSataNode>) -> UefiStatus {
    let node_data = node.data.as_slice();
    let Some(fields) = fields_of::<6>(
        node,
        node_data,
        DeviceType::MESSAGING,
        DeviceSubType::MESSAGING_SATA,
    ) else {
        return status::OTHER_DATA;
    };
    out.write(UefiSataNode {
        hba_port_number: u16_at(fields, 0),
        port_multiplier_port_number: u16_at(fields, 2),
        logical_unit_number: u16_at(fields, 4),
    });
    status::OK
}

/// Writes the node of a SATA device to the beginning of the buffer, and sets `size` to its
/// length; the bytes after it stay as they were.
///
/// If the buffer is too small, all bytes stay as they were, and `size` is the length that it needs.
#[unsafe(no_mangle)]
pub extern "C" fn uefi_write_sata_node(
    buffer: Buffer<'_>,
    node: &UefiSataNode,
    size: &mut MaybeUninit<usize>,
) -> UefiStatus {
    let buffer = buffer.into_slice();
    let fields = joined::<6>(&[
        &node.hba_port_number.to_le_bytes(),
        &node.port_multiplier_port_number.to_le_bytes(),
        &node.logical_unit_number.to_le_bytes(),
    ]);
    let (status, length) = write_parts(
        buffer,
        DeviceType::MESSAGING,
        DeviceSubType::MESSAGING_SATA,
        &fields,
        &[],
    );
    size.write(length);
    status
}
