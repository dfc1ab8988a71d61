// @generated from proved source. It is not edited.

use core::mem::MaybeUninit;
use crate::bytes::{Buffer, Bytes};

use crate::formats::uefi_c::nodes::typed::write_parts;
use crate::formats::uefi_c::path::UefiNode;
use crate::formats::uefi_c::status::{self, UefiStatus};
use crate::formats::uefi_path::{DeviceSubType, DeviceType};

/// What a vendor describes: a device (UEFI 2.10, 10.3.2.4), a connection (10.3.4.17) or a medium
/// (10.3.5.3), by its type.
#[derive(Clone, Copy, Debug)]
#[repr(C)]
pub struct UefiVendorNode<'a> {
    /// The data of the vendor, which may be none.
    pub vendor_defined_data: Bytes<'a>,
    /// The GUID that says what the data are.
    pub vendor_guid: [u8; 16],
    /// The type: 1 for a device, 3 for a connection, 4 for a medium.
    pub device_type: u8,
}

/// Reads the fields of the node of what a vendor describes.
///
/// If it has another type or subtype, or fewer than 16 bytes of data, the status is that the data
/// are another structure, and `out` stays as it was.
#[unsafe(no_mangle)]
pub extern "C" fn uefi_vendor_node<'a>(
    node: &UefiNode<'a>,
    out: &mut MaybeUninit<UefiVendorNode<'a>>,
) -> UefiStatus {
    let node_data = node.data.as_slice();
    if !is_vendor(node) {
        return status::OTHER_DATA;
    }
    let Some((vendor_guid, vendor_defined_data)) = node_data.split_first_chunk() else {
        return status::OTHER_DATA;
    };
    out.write(UefiVendorNode {
        vendor_defined_data: Bytes::new(vendor_defined_data),
        vendor_guid: *vendor_guid,
        device_type: node.device_type,
    });
    status::OK
}

/// Writes the node of what a vendor describes to the beginning of the buffer, and sets `size` to
/// its length; the bytes after it stay as they were.
///
/// If it returns another status than success, all bytes stay as they were, and `size` is the length
/// that the buffer needs, or 0 if the type is none of the three, or the node would have more than
/// 65535 bytes.
#[unsafe(no_mangle)]
pub extern "C" fn uefi_write_vendor_node(
    buffer: Buffer<'_>,
    node: &UefiVendorNode<'_>,
    size: &mut MaybeUninit<usize>,
) -> UefiStatus {
    let buffer = buffer.into_slice();
    let Some(sub_type) = vendor_sub_type(node.device_type) else {
        size.write(0);
        return status::OTHER_DATA;
    };
    let vendor_defined_data = node.vendor_defined_data.as_slice();
    let (status, length) = write_parts(
        buffer,
        DeviceType(node.device_type),
        sub_type,
        &node.vendor_guid,
        vendor_defined_data,
    );
    size.write(length);
    status
}

/// Returns whether the node has the subtype that vendors describe by its type.
#[inline]
fn is_vendor(node: &UefiNode<'_>) -> bool {
    match vendor_sub_type(node.device_type) {
        Some(sub_type) => sub_type.0 == node.sub_type,
        None => false,
    }
}

/// Returns the subtype of the nodes of this type that vendors describe, or `None` if it has none.
#[inline]
fn vendor_sub_type(device_type: u8) -> Option<DeviceSubType> {
    if device_type == DeviceType::HARDWARE.0 {
        return Some(DeviceSubType::HARDWARE_VENDOR);
    }
    if device_type == DeviceType::MESSAGING.0 {
        return Some(DeviceSubType::MESSAGING_VENDOR);
    }
    if device_type == DeviceType::MEDIA.0 {
        return Some(DeviceSubType::MEDIA_VENDOR);
    }
    None
}
