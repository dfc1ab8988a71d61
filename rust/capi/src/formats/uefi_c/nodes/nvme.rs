// @generated from proved source. It is not edited.

use core::mem::MaybeUninit;
use crate::bytes::Buffer;

use crate::formats::uefi_c::nodes::typed::{fields_of, joined, write_parts};
use crate::formats::uefi_c::path::UefiNode;
use crate::formats::uefi_c::status::{self, UefiStatus};
use crate::formats::uefi_base::little_endian::{u32_at, u64_at};
use crate::formats::uefi_path::{DeviceSubType, DeviceType};

/// A namespace of an NVM Express device (UEFI 2.10, 10.3.4.22).
#[derive(Clone, Copy, Debug)]
#[repr(C)]
pub struct UefiNvmeNode {
    /// The extended unique identifier (EUI-64), or 0 if there is none.
    pub ieee_extended_unique_identifier: u64,
    /// The number of the namespace.
    pub namespace_identifier: u32,
}

/// Reads the fields of the node of an NVM Express namespace.
///
/// If it has another type or subtype, or its data have another length, the status is that the data
/// are another structure, and `out` stays as it was.
#[unsafe(no_mangle)]
pub extern "C" fn uefi_nvme_node(node: &UefiNode<'_>, out: &mut MaybeUninit<UefiNvmeNode>) -> UefiStatus {
    let node_data = node.data.as_slice();
    let Some(fields) = fields_of::<12>(
        node,
        node_data,
        DeviceType::MESSAGING,
        DeviceSubType::MESSAGING_NVME_NAMESPACE,
    ) else {
        return status::OTHER_DATA;
    };
    out.write(UefiNvmeNode {
        ieee_extended_unique_identifier: u64_at(fields, 4),
        namespace_identifier: u32_at(fields, 0),
    });
    status::OK
}

/// Writes the node of an NVM Express namespace to the beginning of the buffer, and sets `size` to
/// its length; the bytes after it stay as they were.
///
/// If the buffer is too small, all bytes stay as they were, and `size` is the length that it needs.
#[unsafe(no_mangle)]
pub extern "C" fn uefi_write_nvme_node(
    buffer: Buffer<'_>,
    node: &UefiNvmeNode,
    size: &mut MaybeUninit<usize>,
) -> UefiStatus {
    let buffer = buffer.into_slice();
    let fields = joined::<12>(&[
        &node.namespace_identifier.to_le_bytes(),
        &node.ieee_extended_unique_identifier.to_le_bytes(),
    ]);
    let (status, length) = write_parts(
        buffer,
        DeviceType::MESSAGING,
        DeviceSubType::MESSAGING_NVME_NAMESPACE,
        &fields,
        &[],
    );
    size.write(length);
    status
}
