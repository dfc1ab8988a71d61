// @generated from proved source. It is not edited.

use crate::formats::uefi_path_text::text::arguments::HexBytes;
use crate::formats::uefi_path_text::text::file_name::write_file_name;
use crate::formats::uefi_path_text::text::style::{AllowShortcuts, DisplayOnly, Style};
use crate::formats::uefi_path_text::write::partial::write_partial;
use crate::formats::uefi_path_text::write::write_form;
use core::fmt;
use crate::formats::uefi_path::{DevicePathNode, DeviceSubType, DeviceType};

/// A node as text, such as `Pci(0x2,0x0)` (UEFI 2.10, 10.6.1). [`node_to_text`] returns it.
#[derive(Clone, Copy, Debug)]
pub struct NodeText<'a> {
    node: DevicePathNode<'a>,
    style: Style,
}

impl<'a> NodeText<'a> {
    /// Returns the text of the node in the style.
    #[inline]
    fn new(node: DevicePathNode<'a>, style: Style) -> NodeText<'a> {
        NodeText { node, style }
    }
}

/// Writes the text.
impl fmt::Display for NodeText<'_> {
    fn fmt(&self, f: &mut fmt::Formatter<'_>) -> fmt::Result {
        write_node(f, &self.node, self.style)
    }
}

/// Writes a node in the first form that has all of it, or a file's path by its name, or in the
/// generic form. The end of an instance is a comma.
#[inline]
pub(crate) fn write_node(
    f: &mut fmt::Formatter<'_>,
    node: &DevicePathNode<'_>,
    style: Style,
) -> fmt::Result {
    if is_plain_end(node, DeviceSubType::END_INSTANCE) {
        return f.write_str(",");
    }
    match write_typed(f, node, style) {
        Some(written) => written,
        None => write_generic(f, node),
    }
}

/// Writes a node in the first form that has all of it, or a file's path by its name, or for display
/// what a form has of it, or returns `None` and writes nothing.
#[inline]
fn write_typed(
    f: &mut fmt::Formatter<'_>,
    node: &DevicePathNode<'_>,
    style: Style,
) -> Option<fmt::Result> {
    match write_form(f, node, style) {
        Some(written) => Some(written),
        None => write_name(f, node, style),
    }
}

/// Writes a file's path by its name, or for display what a form has of the node, or returns `None`
/// and writes nothing.
#[inline]
fn write_name(
    f: &mut fmt::Formatter<'_>,
    node: &DevicePathNode<'_>,
    style: Style,
) -> Option<fmt::Result> {
    match write_file_name(f, node) {
        Some(written) => Some(written),
        None => write_partial(f, node, style),
    }
}

/// Writes a node in the form that each node has: `Path(TYPE,SUBTYPE,DATA)`, with the data in hex,
/// or `Path(TYPE,SUBTYPE)` if it has no data.
#[inline]
fn write_generic(f: &mut fmt::Formatter<'_>, node: &DevicePathNode<'_>) -> fmt::Result {
    let (device_type, sub_type) = (node.device_type().0, node.sub_type().0);
    match node.data() {
        [] => write!(f, "Path({device_type},{sub_type})"),
        data => write!(f, "Path({device_type},{sub_type},{})", HexBytes(data)),
    }
}

/// Returns whether a node is of the type END, with this subtype and without data.
#[inline]
pub(crate) fn is_plain_end(node: &DevicePathNode<'_>, sub_type: DeviceSubType) -> bool {
    node.full_type() == (DeviceType::END, sub_type) && node.data().is_empty()
}

/// Returns the text of a node: in the form of its type, such as `Pci(0x2,0x0)`, if the form has all
/// of the node, or for display a part of it; and else in the generic form,
/// `Path(TYPE,SUBTYPE,DATA)` (UEFI 2.10, 10.6.1).
#[must_use]
#[inline]
pub fn node_to_text<'a>(
    node: DevicePathNode<'a>,
    display_only: DisplayOnly,
    allow_shortcuts: AllowShortcuts,
) -> NodeText<'a> {
    NodeText::new(node, Style::new(display_only, allow_shortcuts))
}
