// @generated from proved source. It is not edited.

//! Nodes as text, in their forms.

use crate::formats::uefi_path_text::forms::{Section, sections};
use crate::formats::uefi_path_text::text::style::Style;
use crate::formats::uefi_path_text::write::form::{write_in_forms, write_in_sections};
use core::fmt;
use crate::formats::uefi_path::DevicePathNode;

pub(crate) mod bytes;
mod fields;
mod form;
pub(crate) mod partial;
mod repeated;
mod value;

/// Writes a node in the first of the forms that has all of it, or returns `None` and writes nothing
/// if there is none.
#[inline]
pub(crate) fn write_form(
    f: &mut fmt::Formatter<'_>,
    node: &DevicePathNode<'_>,
    style: Style,
) -> Option<fmt::Result> {
    match write_displayed(f, node, style) {
        Some(written) => Some(written),
        None => write_read(f, node, style),
    }
}

/// The same in the forms that are for display alone, if the text is.
#[inline]
fn write_displayed(
    f: &mut fmt::Formatter<'_>,
    node: &DevicePathNode<'_>,
    style: Style,
) -> Option<fmt::Result> {
    if style.display_only {
        write_in_forms(f, Section::Display.forms(), node, style)
    } else {
        None
    }
}

/// The same in the forms in which nodes are read.
#[inline]
fn write_read(
    f: &mut fmt::Formatter<'_>,
    node: &DevicePathNode<'_>,
    style: Style,
) -> Option<fmt::Result> {
    write_in_sections(f, sections(), node, style)
}
