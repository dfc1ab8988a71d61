// @generated from proved source. It is not edited.

use core::mem::MaybeUninit;
use crate::bytes::Buffer;

use crate::formats::uefi_c::nodes::typed::{fields_of, write_parts};
use crate::formats::uefi_c::path::UefiNode;
use crate::formats::uefi_c::status::{self, UefiStatus};
use crate::formats::uefi_path::{DeviceSubType, DeviceType};

/// A USB device, by its port (UEFI 2.10, 10.3.4.5).
#[derive(Clone, Copy, Debug)]
#[repr(C)]
pub struct UefiUsbNode {
    /// The port of the hub.
    pub parent_port_number: u8,
    /// The interface of the device.
    pub interface_number: u8,
}

/// Reads the fields of the node of a USB device.
///
/// If it has another type or subtype, or its data have another length, the status is that the data
/// are another structure, and `out` stays as it was.
#[unsafe(no_mangle)]
pub extern "C" fn uefi_usb_node(node: &UefiNode<'_>, out: &mut MaybeUninit<UefiUsbNode>) -> UefiStatus {
    let node_data = node.data.as_slice();
    let Some(fields) = fields_of::<2>(
        node,
        node_data,
        DeviceType::MESSAGING,
        DeviceSubType::MESSAGING_USB,
    ) else {
        return status::OTHER_DATA;
    };
    out.write(UefiUsbNode {
        parent_port_number: fields[0],
        interface_number: fields[1],
    });
    status::OK
}

/// Writes the node of a USB device to the beginning of the buffer, and sets `size` to its
/// length; the bytes after it stay as they were.
///
/// If the buffer is too small, all bytes stay as they were, and `size` is the length that it needs.
#[unsafe(no_mangle)]
pub extern "C" fn uefi_write_usb_node(
    buffer: Buffer<'_>,
    node: &UefiUsbNode,
    size: &mut MaybeUninit<usize>,
) -> UefiStatus {
    let buffer = buffer.into_slice();
    let fields = [node.parent_port_number, node.interface_number];
    let (status, length) = write_parts(
        buffer,
        DeviceType::MESSAGING,
        DeviceSubType::MESSAGING_USB,
        &fields,
        &[],
    );
    size.write(length);
    status
}
