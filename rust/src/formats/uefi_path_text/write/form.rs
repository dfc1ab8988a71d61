// @generated from proved source. It is not edited.

//! The text of a node in a form.

use crate::formats::uefi_path_text::form::{Arguments, NodeForm, Source};
use crate::formats::uefi_path_text::forms::Section;
use crate::formats::uefi_path_text::text::style::Style;
use crate::formats::uefi_path_text::write::bytes::{after, front};
use crate::formats::uefi_path_text::write::fields::Fields;
use crate::formats::uefi_path_text::write::repeated::{are_repeated, repeated_count, write_values};
use core::fmt;
use crate::formats::uefi_path::DevicePathNode;

/// Writes a node in the first of these forms that has all of it, or returns `None` and writes
/// nothing if there is none.
#[inline]
pub(crate) fn write_in_forms(
    f: &mut fmt::Formatter<'_>,
    forms: &[NodeForm],
    node: &DevicePathNode<'_>,
    style: Style,
) -> Option<fmt::Result> {
    let Some((form, others)) = forms.split_first() else {
        return None;
    };
    if form.is_form_of(node, style) {
        Some(form.write(f, node.data(), style))
    } else {
        write_in_forms(f, others, node, style)
    }
}

/// The same in the forms of these sections.
#[inline]
pub(crate) fn write_in_sections(
    f: &mut fmt::Formatter<'_>,
    sections: &[Section],
    node: &DevicePathNode<'_>,
    style: Style,
) -> Option<fmt::Result> {
    let Some((section, others)) = sections.split_first() else {
        return None;
    };
    match write_in_forms(f, section.forms(), node, style) {
        Some(written) => Some(written),
        None => write_in_sections(f, others, node, style),
    }
}

impl NodeForm {
    /// Returns whether the form is one of the style, and has all of a node.
    #[inline]
    fn is_form_of(&self, node: &DevicePathNode<'_>, style: Style) -> bool {
        (!self.is_shortcut || style.allow_shortcuts) && self.has_node(node)
    }

    /// Returns whether the form has all of a node.
    #[inline]
    fn has_node(&self, node: &DevicePathNode<'_>) -> bool {
        self.device_type.is_number(node.device_type().0)
            && self.sub_type.is_number(node.sub_type().0)
            && self.arguments.have_data(node.data())
    }

    /// Writes the data of a node in the form.
    #[inline]
    fn write(
        &self,
        f: &mut fmt::Formatter<'_>,
        payload: &[u8],
        style: Style,
    ) -> fmt::Result {
        f.write_str(self.name)?;
        f.write_str("(")?;
        if style.display_only {
            self.write_displayed(f, payload)
        } else {
            self.arguments.write(f, payload)
        }
    }

    /// Writes the arguments for display.
    #[inline]
    fn write_displayed(
        &self,
        f: &mut fmt::Formatter<'_>,
        payload: &[u8],
    ) -> fmt::Result {
        match self.arguments {
            Arguments::Listed(parameters, parts) => {
                Fields {
                    parameters,
                    parts,
                    payload,
                }
                .write_some(
                    f,
                    usize::from(self.first_displayed),
                    usize::from(self.displayed),
                )
            }
            Arguments::Repeated(_, _) => self.arguments.write(f, payload),
        }
    }
}

impl Arguments {
    /// Returns whether the data of a node are those of the arguments.
    #[inline]
    fn have_data(&self, payload: &[u8]) -> bool {
        match *self {
            Arguments::Listed(parameters, parts) => {
                Fields {
                    parameters,
                    parts,
                    payload,
                }
                .are_whole()
            }
            Arguments::Repeated(prefix, argument) => {
                front(payload, prefix.len()) == prefix
                    && are_repeated(argument, after(payload, prefix.len()))
            }
        }
    }

    /// Writes the arguments.
    #[inline]
    fn write(&self, f: &mut fmt::Formatter<'_>, payload: &[u8]) -> fmt::Result {
        match *self {
            Arguments::Listed(parameters, parts) => {
                Fields {
                    parameters,
                    parts,
                    payload,
                }
                .write(f)
            }
            Arguments::Repeated(prefix, argument) => {
                let rest = after(payload, prefix.len());
                write_values(f, argument, repeated_count(argument, rest), rest, "")
            }
        }
    }
}

impl Source {
    /// Returns whether it is a number.
    #[inline]
    pub(crate) fn is_number(self, number: u8) -> bool {
        match self {
            Source::Known(known) => known == number,
            Source::Stated(_) => false,
        }
    }
}
