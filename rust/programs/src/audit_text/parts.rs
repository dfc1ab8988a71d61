// @generated from proved source. It is not edited.

//! What the data of an event say, as named parts.
//!
//! [`content_parts`] lists the parts of each content.

pub(crate) use self::content::content_parts;
pub(crate) use self::firmware::header_parts;
pub(crate) use self::part::{Part, PartValue};

mod content;
mod firmware;
mod gpt;
mod part;
mod path;
mod signatures;
mod texts;
mod variable;
