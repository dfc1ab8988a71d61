// @generated from proved source. It is not edited.

//! The text for display of a node that no form has all of.

use crate::formats::uefi_path_text::form::argument::Argument;
use crate::formats::uefi_path_text::form::words::Words;
use crate::formats::uefi_path_text::form::{Arguments, NodeForm, Parameter, Part};
use crate::formats::uefi_path_text::forms::{Section, sections};
use crate::formats::uefi_path_text::text::escape::{EscapedBytes, EscapedUnits};
use crate::formats::uefi_path_text::text::style::Style;
use crate::formats::uefi_path_text::write::bytes::{after, front, number};
use crate::formats::uefi_path_text::write::fields::{Fields, Found, part_size};
use crate::formats::uefi_path_text::write::repeated::repeated_count;
use crate::formats::uefi_path_text::write::value::{write_ipv4, write_word};
use core::fmt;
use crate::formats::uefi_path::{DevicePathNode, DeviceSubType, DeviceType};

/// Writes a node for display in the first form that may have it, or the name of a file, or returns
/// `None` and writes nothing if there is none, or the text isn't for display.
#[inline]
pub(crate) fn write_partial(
    f: &mut fmt::Formatter<'_>,
    node: &DevicePathNode<'_>,
    style: Style,
) -> Option<fmt::Result> {
    if style.display_only {
        write_form_or_name(f, node, style)
    } else {
        None
    }
}

/// Writes a node in the first form that may have it, or the name of a file.
#[inline]
fn write_form_or_name(
    f: &mut fmt::Formatter<'_>,
    node: &DevicePathNode<'_>,
    style: Style,
) -> Option<fmt::Result> {
    match write_form(f, node, style) {
        Some(written) => Some(written),
        None => write_name(f, node),
    }
}

/// Writes a node in the first form that may have it.
#[inline]
fn write_form(
    f: &mut fmt::Formatter<'_>,
    node: &DevicePathNode<'_>,
    style: Style,
) -> Option<fmt::Result> {
    write_in_sections(f, sections(), node, style)
}

/// The same in the forms of these sections.
#[inline]
fn write_in_sections(
    f: &mut fmt::Formatter<'_>,
    sections: &[Section],
    node: &DevicePathNode<'_>,
    style: Style,
) -> Option<fmt::Result> {
    let Some((section, others)) = sections.split_first() else {
        return None;
    };
    match write_in_forms(f, section.forms(), node, style) {
        Some(written) => Some(written),
        None => write_in_sections(f, others, node, style),
    }
}

/// The same in these forms.
#[inline]
fn write_in_forms(
    f: &mut fmt::Formatter<'_>,
    forms: &[NodeForm],
    node: &DevicePathNode<'_>,
    style: Style,
) -> Option<fmt::Result> {
    let Some((form, others)) = forms.split_first() else {
        return None;
    };
    if form.may_have_node(node, style) {
        Some(form.write_partial(f, node.data()))
    } else {
        write_in_forms(f, others, node, style)
    }
}

/// Writes the name of a file, if it isn't empty.
#[inline]
fn write_name(
    f: &mut fmt::Formatter<'_>,
    node: &DevicePathNode<'_>,
) -> Option<fmt::Result> {
    let name = EscapedUnits::new(node.data());
    if node.full_type() != (DeviceType::MEDIA, DeviceSubType::MEDIA_FILE_PATH) || name.is_empty() {
        return None;
    }
    Some(write!(f, "{name}"))
}

impl NodeForm {
    /// Returns whether the form is one of the style, and may be that of a node.
    #[inline]
    fn may_have_node(&self, node: &DevicePathNode<'_>, style: Style) -> bool {
        (!self.is_shortcut || style.allow_shortcuts)
            && self.device_type.is_number(node.device_type().0)
            && self.sub_type.is_number(node.sub_type().0)
            && self.arguments.may_have(self.reserved, node.data())
    }

    /// Writes what the form has of the data of a node.
    #[inline]
    fn write_partial(&self, f: &mut fmt::Formatter<'_>, payload: &[u8]) -> fmt::Result {
        f.write_str(self.name)?;
        f.write_str("(")?;
        match self.arguments {
            Arguments::Listed(parameters, parts) => {
                Fields {
                    parameters,
                    parts,
                    payload,
                }
                .write_partial(
                    f,
                    usize::from(self.first_displayed),
                    usize::from(self.displayed),
                )
            }
            Arguments::Repeated(prefix, argument) => {
                let rest = after(payload, prefix.len());
                write_partial_values(f, argument, repeated_count(argument, rest), rest, "")
            }
        }
    }
}

impl Arguments {
    /// Returns whether the data of a node may be those of the arguments, whatever the reserved bytes
    /// are.
    #[inline]
    fn may_have(&self, reserved: Option<u8>, payload: &[u8]) -> bool {
        match *self {
            Arguments::Listed(parameters, parts) => {
                Fields {
                    parameters,
                    parts,
                    payload,
                }
                .may_be(reserved)
            }
            Arguments::Repeated(prefix, _) => front(payload, prefix.len()) == prefix,
        }
    }
}

impl Fields<'_> {
    /// Returns whether the data begin with the parts, whatever the reserved bytes are, and have
    /// values that the form may have.
    #[inline]
    fn may_be(&self, reserved: Option<u8>) -> bool {
        // Its length says that an index of an argument has no overflow.
        let _few = self.parameters.len();
        self.begin_with(self.parts, reserved, self.payload) && self.may_be_all(self.parameters, 0)
    }

    /// Returns whether bytes begin with these parts.
    #[inline]
    fn begin_with(&self, parts: &[Part], reserved: Option<u8>, rest: &[u8]) -> bool {
        let Some((part, others)) = parts.split_first() else {
            return true;
        };
        let size = part_size(self.parameters, part, rest);
        size <= rest.len()
            && (reserved == Some(0) || part.has_bytes(rest))
            && self.begin_with(others, one_less(reserved), after(rest, size))
    }

    /// Returns whether the values of these arguments, from an index on, may be those of the form.
    #[inline]
    fn may_be_all(&self, parameters: &[Parameter], index: usize) -> bool {
        let Some((parameter, others)) = parameters.split_first() else {
            return true;
        };
        self.found(index).may_be(parameter.argument) && self.may_be_all(others, index + 1)
    }

    /// Writes what so many arguments have of their values, from an index on, with commas between
    /// them, and the closing parenthesis.
    #[inline]
    fn write_partial(
        &self,
        f: &mut fmt::Formatter<'_>,
        first: usize,
        count: usize,
    ) -> fmt::Result {
        let shown = front(after(self.parameters, first), count);
        self.write_partial_from(f, shown, first, "")
    }

    /// The same for these arguments, with a mark before the first.
    #[inline]
    fn write_partial_from(
        &self,
        f: &mut fmt::Formatter<'_>,
        parameters: &[Parameter],
        index: usize,
        mark: &str,
    ) -> fmt::Result {
        let Some((parameter, others)) = parameters.split_first() else {
            return f.write_str(")");
        };
        let value = self.found(index);
        if others.is_empty() && value.is_left_out(parameter.argument) {
            return f.write_str(")");
        }
        f.write_str(mark)?;
        value.write_partial(f, parameter.argument)?;
        self.write_partial_from(f, others, index + 1, ",")
    }
}

/// Returns the index one less, if it isn't 0.
#[inline]
fn one_less(index: Option<u8>) -> Option<u8> {
    index?.checked_sub(1)
}

impl Found<'_> {
    /// Returns whether the value may be one of a form with the argument.
    #[inline]
    fn may_be(&self, argument: Argument) -> bool {
        match self {
            Found::Bytes(bytes) => argument.may_be(bytes),
            Found::Number(number) => argument.may_be(&number.to_le_bytes()),
        }
    }

    /// Writes what the argument has of the value.
    #[inline]
    fn write_partial(
        &self,
        f: &mut fmt::Formatter<'_>,
        argument: Argument,
    ) -> fmt::Result {
        match self {
            Found::Bytes(bytes) => argument.write_partial(f, bytes),
            Found::Number(number) => argument.write_partial(f, &number.to_le_bytes()),
        }
    }
}

/// Writes what the argument has of so many values, with a mark before the first and commas between
/// them, and the closing parenthesis.
#[inline]
fn write_partial_values(
    f: &mut fmt::Formatter<'_>,
    argument: Argument,
    count: usize,
    rest: &[u8],
    mark: &str,
) -> fmt::Result {
    if count == 0 {
        return f.write_str(")");
    }
    let size = argument.value_size(rest);
    f.write_str(mark)?;
    argument.write_partial(f, front(rest, size))?;
    write_partial_values(f, argument, count - 1, after(rest, size), ",")
}

impl Part {
    /// Returns whether bytes begin with those of the part, if it has some.
    #[inline]
    fn has_bytes(&self, rest: &[u8]) -> bool {
        match self {
            Part::Bytes(bytes) => front(rest, bytes.len()) == *bytes,
            _ => true,
        }
    }
}

impl Argument {
    /// Returns whether a value may be one of a form with the argument.
    #[inline]
    fn may_be(self, value: &[u8]) -> bool {
        match self {
            Argument::Word(words, size) => {
                value.len() == size.bytes()
                    && (!words.chooses_form() || words.word_for(number(value)).is_some())
            }
            Argument::Ipv4Server => value.len() == 16,
            Argument::Text(_) | Argument::Quoted => true,
            Argument::Name(_) => !value.is_empty(),
            _ => self.can_show(value),
        }
    }

    /// Writes what the argument has of a value.
    #[inline]
    fn write_partial(self, f: &mut fmt::Formatter<'_>, value: &[u8]) -> fmt::Result {
        match self {
            Argument::Text(_) | Argument::Name(_) => write!(f, "{}", EscapedBytes(value)),
            Argument::Quoted => write!(f, "\"{}\"", EscapedUnits::new(value)),
            Argument::Word(words, size) if value.len() == size.bytes() => {
                write_word(f, words, value)
            }
            Argument::Ipv4Server if value.len() == 16 => write_ipv4(f, value),
            _ if self.can_show(value) => self.write_value(f, value),
            _ => Ok(()),
        }
    }
}

impl Words {
    /// Returns whether a type's form is chosen by the word.
    #[inline]
    fn chooses_form(self) -> bool {
        matches!(self, Words::NoTopology | Words::Zero)
    }
}
