// @generated from proved source. It is not edited.

//! The form of a node as text (UEFI 2.10, 10.6.1.6): a name, what its arguments are, and which node
//! they make.

use crate::formats::uefi_path_text::form::argument::Argument;

pub(crate) mod argument;
pub(crate) mod parameters;
pub(crate) mod shape;
pub(crate) mod size;
pub(crate) mod words;

/// A form, in which nodes are read and written.
#[derive(Clone, Copy, Debug)]
pub(crate) struct NodeForm {
    /// The name.
    pub(crate) name: &'static str,
    /// The type of the node.
    pub(crate) device_type: Source,
    /// The subtype of the node.
    pub(crate) sub_type: Source,
    /// The arguments.
    pub(crate) arguments: Arguments,
    /// It is written only where shortcuts are allowed.
    pub(crate) is_shortcut: bool,
    /// The index of the first argument that is written for display.
    pub(crate) first_displayed: u8,
    /// How many arguments are written for display, at most.
    pub(crate) displayed: u8,
    /// The index of the part of reserved bytes, if there is one: they are zeros, which display
    /// doesn't ask for.
    pub(crate) reserved: Option<u8>,
}

/// A form that is no shortcut, and for display is the same. The forms say where they differ.
pub(crate) const PLAIN: NodeForm = NodeForm {
    name: "",
    device_type: Source::Known(0),
    sub_type: Source::Known(0),
    arguments: Arguments::Listed(&[], &[]),
    is_shortcut: false,
    first_displayed: 0,
    displayed: u8::MAX,
    reserved: None,
};

/// What is in the parentheses.
#[derive(Clone, Copy, Debug)]
pub(crate) enum Arguments {
    /// These arguments, whose values are in the parts of the node's data.
    Listed(&'static [Parameter], &'static [Part]),
    /// One or more arguments of a kind, whose values follow these bytes.
    Repeated(&'static [u8], Argument),
}

/// An argument of a form.
#[derive(Clone, Copy, Debug)]
pub(crate) struct Parameter {
    /// What the argument is.
    pub(crate) argument: Argument,
    /// The text that stands for it if it is left out or empty; the empty text, if it can't be left
    /// out.
    pub(crate) default: &'static str,
}

/// Where a type or a subtype comes from.
#[derive(Clone, Copy, Debug)]
pub(crate) enum Source {
    /// It is this number.
    Known(u8),
    /// It is the first byte of the argument at this index.
    Stated(usize),
}

/// A part of a node's data.
#[derive(Clone, Copy, Debug)]
pub(crate) enum Part {
    /// These bytes.
    Bytes(&'static [u8]),
    /// The value of the argument at this index.
    Value(usize),
    /// The value of the argument at this index, with zeros after it, in 32 bytes.
    Padded(usize),
    /// The sum of numbers of two bytes: of the arguments from the first index on, so many.
    Sum(u8, u8),
}
