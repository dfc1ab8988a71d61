// @generated from proved source. It is not edited.

//! UEFI device paths as text and from text (UEFI 2.10, 10.6).
//!
//! [`to_text`] writes a path as text, [`instance_to_text`] an instance and [`node_to_text`] a node.
//! [`from_text`] reads the path of a text into a caller's buffer, and [`write_from_text`] does so
//! for a caller that goes on with the buffer. [`from_text_in`] alone allocates.

#[cfg(feature = "alloc")]
pub use self::parse::from_text_in;
pub use self::parse::{FromTextError, from_text, write_from_text};
pub use self::text::{
    AllowShortcuts, DisplayOnly, NodeText, PathText, instance_to_text, node_to_text, to_text,
};

mod form;
mod forms;
mod parse;
mod text;
mod write;
