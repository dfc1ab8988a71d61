// @generated from proved source. It is not edited.

use crate::support::fallible::*;

use crate::audit_text::parts::part::{Part, PartValue, PartsResult, joined};
use crate::audit_text::words::path_text;
use uefi_formats::proto::tcg::content::ImageLoadEvent;
use uefi_formats::proto::device_path::{DevicePath, DevicePathNode};

/// Returns the parts of an image: its numbers, its device path, and the bytes after that.
pub(crate) fn image_parts<'a>(
    image: &ImageLoadEvent<'a>,
    path: &Option<DevicePath<'a>>,
) -> PartsResult<'a> {
    let linked = PartValue::Hexadecimal(image.link_time_address);
    let numbers = fallible_vec![Part::new(
            "address",
            "  image at ",
            PartValue::Hexadecimal(image.location_in_memory)
        ),
        Part::new("length", ", ", PartValue::Decimal(image.length_in_memory)),
        Part::new("link_address", " bytes, linked for ", linked),
        Part::words("\n"),]?;
    let path = match path {
        Some(path) => path_parts(path)?,
        None => fallible_vec![Part::bytes("path", "  path", image.device_path)]?,
    };
    let mut parts = joined(numbers, path)?;
    parts.fallible_push(Part::rest(image.rest))?;
    Ok(parts)
}

/// Returns the parts of a device path: its nodes before the one that ends it, and its text.
pub(crate) fn path_parts<'a>(path: &DevicePath<'a>) -> PartsResult<'a> {
    let mut nodes = Vec::new();
    for node in path.node_iter() {
        nodes.fallible_push(PartValue::Object(node_parts(&node)?))?;
    }
    let text = path_text(*path).fallible_to_string()?;
    Ok(fallible_vec![Part::in_json("path", PartValue::List(nodes)),
        Part::new("text", "  path ", PartValue::Plain(text)),
        Part::words("\n"),]?)
}

/// Returns the parts of a node: its data, its subtype and its type.
fn node_parts<'a>(node: &DevicePathNode<'a>) -> PartsResult<'a> {
    let (device_type, sub_type) = node.full_type();
    Ok(fallible_vec![Part::in_json("data", PartValue::Bytes(node.data())),
        Part::in_json("subtype", PartValue::Decimal(u64::from(sub_type.0))),
        Part::in_json("type", PartValue::Decimal(u64::from(device_type.0))),]?)
}
