// @generated from proved source. It is not edited.

//! Nodes and paths as text (UEFI 2.10, 10.6).

pub use self::node_text::{NodeText, node_to_text};
pub use self::path_text::{PathText, instance_to_text, to_text};
pub use self::style::{AllowShortcuts, DisplayOnly};

pub(crate) mod arguments;
pub(crate) mod escape;
pub(crate) mod file_name;
mod node_text;
mod path_text;
pub(crate) mod style;
