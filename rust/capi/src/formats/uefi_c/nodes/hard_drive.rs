// @generated from proved source. It is not edited.

use core::mem::MaybeUninit;
use crate::bytes::Buffer;

use crate::formats::uefi_c::nodes::typed::{bytes_at, fields_of, joined, write_parts};
use crate::formats::uefi_c::path::UefiNode;
use crate::formats::uefi_c::status::{self, UefiStatus};
use crate::formats::uefi_base::little_endian::{u32_at, u64_at};
use crate::formats::uefi_path::{DeviceSubType, DeviceType};

/// A partition of a hard drive (UEFI 2.10, 10.3.5.1).
#[derive(Clone, Copy, Debug)]
#[repr(C)]
pub struct UefiHardDriveNode {
    /// The first block.
    pub partition_start: u64,
    /// The number of blocks.
    pub partition_size: u64,
    /// The number of the partition, from 1 on, or 0 for the whole drive.
    pub partition_number: u32,
    /// What identifies the partition or its drive, by `signature_type`.
    pub partition_signature: [u8; 16],
    /// The format of the partition table: 1 for a master boot record, 2 for a GUID partition table.
    pub partition_format: u8,
    /// What the signature is: 0 for none, 1 for four bytes of a master boot record, 2 for a GUID.
    pub signature_type: u8,
}

/// Reads the fields of the node of a partition.
///
/// If it has another type or subtype, or its data have another length, the status is that the data
/// are another structure, and `out` stays as it was.
#[unsafe(no_mangle)]
pub extern "C" fn uefi_hard_drive_node(
    node: &UefiNode<'_>,
    out: &mut MaybeUninit<UefiHardDriveNode>,
) -> UefiStatus {
    let node_data = node.data.as_slice();
    let Some(fields) = fields_of::<38>(
        node,
        node_data,
        DeviceType::MEDIA,
        DeviceSubType::MEDIA_HARD_DRIVE,
    ) else {
        return status::OTHER_DATA;
    };
    out.write(UefiHardDriveNode {
        partition_start: u64_at(fields, 4),
        partition_size: u64_at(fields, 12),
        partition_number: u32_at(fields, 0),
        partition_signature: bytes_at(fields, 20),
        partition_format: fields[36],
        signature_type: fields[37],
    });
    status::OK
}

/// Writes the node of a partition to the beginning of the buffer, and sets `size` to its length;
/// the bytes after it stay as they were.
///
/// If the buffer is too small, all bytes stay as they were, and `size` is the length that it needs.
#[unsafe(no_mangle)]
pub extern "C" fn uefi_write_hard_drive_node(
    buffer: Buffer<'_>,
    node: &UefiHardDriveNode,
    size: &mut MaybeUninit<usize>,
) -> UefiStatus {
    let buffer = buffer.into_slice();
    let fields = joined::<38>(&[
        &node.partition_number.to_le_bytes(),
        &node.partition_start.to_le_bytes(),
        &node.partition_size.to_le_bytes(),
        &node.partition_signature,
        &node.partition_format.to_le_bytes(),
        &node.signature_type.to_le_bytes(),
    ]);
    let (status, length) = write_parts(
        buffer,
        DeviceType::MEDIA,
        DeviceSubType::MEDIA_HARD_DRIVE,
        &fields,
        &[],
    );
    size.write(length);
    status
}
