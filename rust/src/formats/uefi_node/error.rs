// @generated from proved source. It is not edited.

use core::error::Error;
use core::fmt;

/// Why a node is no value of a type.
#[non_exhaustive]
#[derive(Clone, Copy, PartialEq, Eq, Debug)]
pub enum NodeConversionError {
    /// The node has another type or subtype.
    DifferentType,
    /// No type of nodes has this type and subtype.
    UnsupportedType,
    /// The data have another length than the type has.
    Length,
    /// The data have the length, but not the form of the type.
    Form,
}

/// Writes what is wrong with the node, such as `a node of another type`.
impl fmt::Display for NodeConversionError {
    fn fmt(&self, f: &mut fmt::Formatter<'_>) -> fmt::Result {
        f.write_str(match self {
            NodeConversionError::DifferentType => "a node of another type",
            NodeConversionError::UnsupportedType => "a node of an unknown type",
            NodeConversionError::Length => "a length that no node of the type has",
            NodeConversionError::Form => "data that no node of the type has",
        })
    }
}

impl Error for NodeConversionError {}
