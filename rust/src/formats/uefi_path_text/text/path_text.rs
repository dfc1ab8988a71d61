// @generated from proved source. It is not edited.

use crate::formats::uefi_path_text::text::node_text::{is_plain_end, write_node};
use crate::formats::uefi_path_text::text::style::{AllowShortcuts, DisplayOnly, Style};
use core::fmt;
use crate::formats::uefi_path::{
    DevicePath, DevicePathInstance, DevicePathNode, DevicePathNodeIterator, DeviceSubType,
};

/// A path or an instance as text, such as `PciRoot(0x0)/Pci(0x2,0x0)` (UEFI 2.10, 10.6.1).
/// [`to_text`] and [`instance_to_text`] return it.
#[derive(Clone, Copy, Debug)]
pub struct PathText<'a> {
    nodes: DevicePathNodeIterator<'a>,
    end: DevicePathNode<'a>,
    style: Style,
}

impl<'a> PathText<'a> {
    /// Returns the text of these nodes and the END node after them.
    #[inline]
    fn new(nodes: DevicePathNodeIterator<'a>, end: DevicePathNode<'a>, style: Style) -> PathText<'a> {
        PathText { nodes, end, style }
    }
}

/// Writes the text.
impl fmt::Display for PathText<'_> {
    fn fmt(&self, f: &mut fmt::Formatter<'_>) -> fmt::Result {
        write_nodes(f, self.nodes, &self.end, self.style)
    }
}

/// Writes the text of nodes and of the END node after them.
#[inline]
fn write_nodes(
    f: &mut fmt::Formatter<'_>,
    nodes: DevicePathNodeIterator<'_>,
    end: &DevicePathNode<'_>,
    style: Style,
) -> fmt::Result {
    let mut is_first = true;
    for node in nodes {
        write_next(f, &node, is_first, style)?;
        is_first = is_plain_end(&node, DeviceSubType::END_INSTANCE);
    }
    if is_shown_end(end) {
        write_next(f, end, is_first, style)?;
    }
    Ok(())
}

/// Writes a node, after a slash if it follows another one of its instance.
#[inline]
fn write_next(
    f: &mut fmt::Formatter<'_>,
    node: &DevicePathNode<'_>,
    is_first: bool,
    style: Style,
) -> fmt::Result {
    if !is_first && !is_plain_end(node, DeviceSubType::END_INSTANCE) {
        f.write_str("/")?;
    }
    write_node(f, node, style)
}

/// Returns whether the node that ends a path or an instance has a text: whether it has data, or no
/// known subtype.
#[inline]
fn is_shown_end(node: &DevicePathNode<'_>) -> bool {
    !is_plain_end(node, DeviceSubType::END_INSTANCE)
        && !is_plain_end(node, DeviceSubType::END_ENTIRE)
}

/// Returns the text of a path: instances with `,` between them, of nodes with `/` between them,
/// each as [`node_to_text`](crate::formats::uefi_path_text::node_to_text) returns it (UEFI 2.10, 10.6.1).
///
/// An empty instance is an empty text, and so is the path that has no other one.
#[must_use]
#[inline]
pub fn to_text<'a>(
    path: DevicePath<'a>,
    display_only: DisplayOnly,
    allow_shortcuts: AllowShortcuts,
) -> PathText<'a> {
    let style = Style::new(display_only, allow_shortcuts);
    PathText::new(path.node_iter(), path.end_node(), style)
}

/// Returns the text of an instance of a path: nodes with `/` between them.
#[must_use]
#[inline]
pub fn instance_to_text<'a>(
    instance: DevicePathInstance<'a>,
    display_only: DisplayOnly,
    allow_shortcuts: AllowShortcuts,
) -> PathText<'a> {
    let style = Style::new(display_only, allow_shortcuts);
    PathText::new(instance.node_iter(), instance.end_node(), style)
}
