// @generated from proved source. It is not edited.

use core::mem::MaybeUninit;
use crate::bytes::Buffer;

use crate::formats::uefi_c::nodes::typed::{fields_of, write_parts};
use crate::formats::uefi_c::path::UefiNode;
use crate::formats::uefi_c::status::{self, UefiStatus};
use crate::formats::uefi_path::{DeviceSubType, DeviceType};

/// A PCI function (UEFI 2.10, 10.3.2.1).
#[derive(Clone, Copy, Debug)]
#[repr(C)]
pub struct UefiPciNode {
    /// The function.
    pub function: u8,
    /// The device.
    pub device: u8,
}

/// Reads the fields of the node of a PCI function.
///
/// If it has another type or subtype, or its data have another length, the status is that the data
/// are another structure, and `out` stays as it was.
#[unsafe(no_mangle)]
pub extern "C" fn uefi_pci_node(node: &UefiNode<'_>, out: &mut MaybeUninit<UefiPciNode>) -> UefiStatus {
    let node_data = node.data.as_slice();
    let Some(fields) = fields_of::<2>(
        node,
        node_data,
        DeviceType::HARDWARE,
        DeviceSubType::HARDWARE_PCI,
    ) else {
        return status::OTHER_DATA;
    };
    out.write(UefiPciNode {
        function: fields[0],
        device: fields[1],
    });
    status::OK
}

/// Writes the node of a PCI function to the beginning of the buffer, and sets `size` to its
/// length; the bytes after it stay as they were.
///
/// If the buffer is too small, all bytes stay as they were, and `size` is the length that it needs.
#[unsafe(no_mangle)]
pub extern "C" fn uefi_write_pci_node(
    buffer: Buffer<'_>,
    node: &UefiPciNode,
    size: &mut MaybeUninit<usize>,
) -> UefiStatus {
    let buffer = buffer.into_slice();
    let fields = [node.function, node.device];
    let (status, length) = write_parts(
        buffer,
        DeviceType::HARDWARE,
        DeviceSubType::HARDWARE_PCI,
        &fields,
        &[],
    );
    size.write(length);
    status
}
