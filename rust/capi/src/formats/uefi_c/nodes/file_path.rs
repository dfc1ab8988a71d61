// @generated from proved source. It is not edited.

use core::mem::MaybeUninit;
use crate::bytes::{Buffer, Bytes};

use crate::formats::uefi_c::nodes::typed::{is_of, write_parts};
use crate::formats::uefi_c::path::UefiNode;
use crate::formats::uefi_c::status::{self, UefiStatus};
use crate::formats::uefi_base::UnalignedSlice;
use crate::formats::uefi_path::{DeviceSubType, DeviceType};

/// The path of a file (UEFI 2.10, 10.3.5.4).
#[derive(Clone, Copy, Debug)]
#[repr(C)]
pub struct UefiFilePathNode<'a> {
    /// The bytes of the path: any units of two bytes, little-endian, also without a NUL.
    pub path_name: Bytes<'a>,
}

/// Reads the path of a file that the data of a node are.
///
/// If the node has another type or subtype, or data of an odd length, the status is that the data
/// are another structure, and `out` stays as it was.
#[unsafe(no_mangle)]
pub extern "C" fn uefi_file_path_node<'a>(
    node: &UefiNode<'a>,
    out: &mut MaybeUninit<UefiFilePathNode<'a>>,
) -> UefiStatus {
    let node_data = node.data.as_slice();
    if !is_of(node, DeviceType::MEDIA, DeviceSubType::MEDIA_FILE_PATH) || !are_units(node_data) {
        return status::OTHER_DATA;
    }
    out.write(UefiFilePathNode {
        path_name: Bytes::new(node_data),
    });
    status::OK
}

/// Writes the node of the path of a file to the beginning of the buffer, and sets `size` to its
/// length; the bytes after it stay as they were.
///
/// If it returns another status than success, all bytes stay as they were, and `size` is the length
/// that the buffer needs, or 0 if the path has an odd length, or the node would have more than
/// 65535 bytes.
#[unsafe(no_mangle)]
pub extern "C" fn uefi_write_file_path_node(
    buffer: Buffer<'_>,
    node: &UefiFilePathNode<'_>,
    size: &mut MaybeUninit<usize>,
) -> UefiStatus {
    let buffer = buffer.into_slice();
    let name = node.path_name.as_slice();
    if !are_units(name) {
        size.write(0);
        return status::OTHER_DATA;
    }
    let (status, length) = write_parts(
        buffer,
        DeviceType::MEDIA,
        DeviceSubType::MEDIA_FILE_PATH,
        &[],
        name,
    );
    size.write(length);
    status
}

/// Returns whether the bytes are those of units of two bytes.
#[inline]
fn are_units(bytes: &[u8]) -> bool {
    UnalignedSlice::try_new(bytes).is_some()
}
