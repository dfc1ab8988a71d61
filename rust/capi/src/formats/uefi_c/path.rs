// @generated from proved source. It is not edited.

use core::mem::MaybeUninit;
use crate::bytes::Bytes;

use crate::formats::uefi_c::cursor::bytes_from;
use crate::formats::uefi_c::node_fault::node_fault;
use crate::formats::uefi_c::status::{self, UefiStatus};
use crate::formats::uefi_path::{DevicePath, DevicePathNode, DeviceType};

/// A node of a device path.
#[derive(Clone, Copy, Debug)]
#[repr(C)]
pub struct UefiNode<'a> {
    /// The bytes after the four of the node's header.
    pub data: Bytes<'a>,
    /// The type.
    pub device_type: u8,
    /// The subtype.
    pub sub_type: u8,
}

/// Finds the path that the bytes begin with: the one prefix that is a path.
#[unsafe(no_mangle)]
pub extern "C" fn uefi_path<'a>(bytes: Bytes<'a>, path: &mut MaybeUninit<Bytes<'a>>) -> UefiStatus {
    let bytes = bytes.as_slice();
    let Ok(found) = DevicePath::try_from(bytes) else {
        return status::NO_PATH;
    };
    path.write(Bytes::new(found.as_bytes()));
    status::OK
}

/// Finds where bytes stop being a path: sets the offset to that of the first node that can't be read,
/// and returns why. If they begin with a path it returns success, and the offset is the path's end.
#[unsafe(no_mangle)]
pub extern "C" fn uefi_path_fault(path: Bytes<'_>, offset: &mut MaybeUninit<usize>) -> UefiStatus {
    let path = path.as_slice();
    let mut rest = path;
    loop {
        let Some((node, after)) = split_node(rest) else {
            offset.write(path.len() - rest.len());
            return node_fault(rest);
        };
        rest = after;
        if node.is_end_entire() {
            offset.write(path.len() - rest.len());
            return status::OK;
        }
    }
}

/// Returns whether both begin with the same path.
#[unsafe(no_mangle)]
pub extern "C" fn uefi_path_equal(path: Bytes<'_>, other: Bytes<'_>) -> bool {
    let path = path.as_slice();
    let other = other.as_slice();
    match (DevicePath::try_from(path), DevicePath::try_from(other)) {
        (Ok(path), Ok(other)) => path == other,
        _ => false,
    }
}

/// Reads the node at the offset, unless it ends the walk, and moves the offset to its end.
///
/// An end-entire node ends the walk, and a node of type END after which the bytes end. Without a node
/// it returns why: the bytes end there, they cut it, or it states a length below 4.
#[unsafe(no_mangle)]
pub extern "C" fn uefi_path_next_node<'a>(
    path: Bytes<'a>,
    offset: &mut usize,
    out: &mut MaybeUninit<UefiNode<'a>>,
) -> UefiStatus {
    let path = path.as_slice();
    let Some(rest) = bytes_from(path, *offset) else {
        return status::NO_END;
    };
    let Some((node, after)) = split_node(rest) else {
        return node_fault(rest);
    };
    if ends_walk(&node, after.is_empty()) {
        return status::END;
    }
    out.write(UefiNode {
        data: Bytes::new(node.data()),
        device_type: node.device_type().0,
        sub_type: node.sub_type().0,
    });
    *offset = path.len() - after.len();
    status::OK
}

/// Returns whether the node ends the walk, by whether the bytes end after it.
#[inline]
fn ends_walk(node: &DevicePathNode<'_>, is_at_end: bool) -> bool {
    if !is_end(node) {
        return false;
    }
    is_at_end || node.is_end_entire()
}

/// Returns whether the node has the type END.
#[inline]
fn is_end(node: &DevicePathNode<'_>) -> bool {
    node.device_type() == DeviceType::END
}

/// Finds the instance at the offset, and moves the offset to its end. Without one it returns why: the
/// bytes end there, or the fault of the first node that isn't there.
#[unsafe(no_mangle)]
pub extern "C" fn uefi_path_next_instance<'a>(
    path: Bytes<'a>,
    offset: &mut usize,
    instance: &mut MaybeUninit<Bytes<'a>>,
) -> UefiStatus {
    let path = path.as_slice();
    if *offset >= path.len() {
        return status::END;
    }
    let (_, rest) = path.split_at(*offset);
    match first_instance(rest) {
        Ok(found) => {
            *offset += found.len();
            instance.write(Bytes::new(found));
            status::OK
        }
        Err(fault) => fault,
    }
}

/// Returns the instance that the bytes begin with: the nodes up to the first of type END.
///
/// # Errors
///
/// The fault of the first node that isn't there.
#[inline]
fn first_instance(bytes: &[u8]) -> Result<&[u8], UefiStatus> {
    let mut rest = bytes;
    loop {
        let Some((node, after)) = split_node(rest) else {
            return Err(node_fault(rest));
        };
        rest = after;
        if is_end(&node) {
            let (found, _) = bytes.split_at(bytes.len() - rest.len());
            return Ok(found);
        }
    }
}

/// Returns the node that the bytes begin with, and the bytes after it.
#[inline]
fn split_node(bytes: &[u8]) -> Option<(DevicePathNode<'_>, &[u8])> {
    let node = DevicePathNode::try_from(bytes).ok()?;
    let (_, after) = bytes.split_at(node.as_bytes().len());
    Some((node, after))
}
