// @generated from proved source. It is not edited.

//! Paths from text (UEFI 2.10, 10.6).

pub use self::error::FromTextError;
#[cfg(feature = "alloc")]
pub use self::path::from_text_in;
pub use self::path::{from_text, write_from_text};

mod argument;
mod call;
mod check;
mod cut;
mod data;
mod error;
mod excess;
mod fault;
mod file_name;
mod ipv4;
mod ipv6;
mod nodes;
mod number;
mod path;
mod piece;
mod place;
mod reading;
mod repeated;
mod shape;
mod text_node;
mod value;
mod words;
