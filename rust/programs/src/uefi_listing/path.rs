// @generated from proved source. It is not edited.

//! What `path` lists of bytes, and what it refuses.

use crate::uefi_listing::listing::Outcome;
use crate::shown::{Hex, HexByte, gap_before};
use crate::support::alloc::AllocError;
use uefi_formats::proto::device_path::{
    ByteConversionError, DevicePath, DevicePathInstance, DevicePathNode,
};

/// Appends the lines of a device path: for each instance `instance N`, its length in bytes, and a
/// line for each node but the one that ends it; last `path N`, the length of the path in bytes.
///
/// The line of a node has two spaces, its type and subtype in hex, and its data in hex if it has
/// any.
///
/// # Errors
///
/// [`AllocError`] if an allocation fails. The text may have grown then.
pub fn push_path(
    text: &mut String,
    path: &DevicePath<'_>,
) -> Result<(), AllocError> {
    for instance in path.instance_iter() {
        push_instance(text, &instance)?;
    }
    let length = path.as_bytes().len();
    fallible_writeln!(text, "path {length}")
}

/// Appends the lines of an instance: its length in bytes, and its nodes but the one that ends it.
fn push_instance(
    text: &mut String,
    instance: &DevicePathInstance<'_>,
) -> Result<(), AllocError> {
    let length = instance.as_bytes().len();
    fallible_writeln!(text, "instance {length}")?;
    for node in instance.node_iter() {
        push_node(text, &node)?;
    }
    Ok(())
}

/// Appends the line of a node: type and subtype, and its data if it has any.
fn push_node(
    text: &mut String,
    node: &DevicePathNode<'_>,
) -> Result<(), AllocError> {
    let (device_type, sub_type) = node.full_type();
    let (device_type, sub_type) = (HexByte(device_type.0), HexByte(sub_type.0));
    let (gap, data) = (gap_before(node.data()), Hex(node.data()));
    fallible_writeln!(text, "  {device_type} {sub_type}{gap}{data}")
}

/// Appends the listing of the device path that is a prefix of the bytes.
///
/// # Errors
///
/// [`AllocError`] if an allocation fails. The text may have grown then.
pub(crate) fn push_path_listing(
    text: &mut String,
    bytes: &[u8],
) -> Result<Outcome, AllocError> {
    match DevicePath::try_from(bytes) {
        Ok(path) => {
            push_path(text, &path)?;
            Ok(Outcome::Listed)
        }
        Err(ByteConversionError::InvalidLength) => {
            fallible_writeln!(text, "refused InvalidLength")?;
            Ok(Outcome::Refused)
        }
    }
}
