// @generated from proved source. It is not edited.

//! The events of a log for a person to read.
//!
//! [`push_event_blocks`] appends a block of lines for each event, and [`push_header_block`] one for
//! the log's header.
//!
//! A name or a text of the log is written as [`ShownName`](crate::shown::ShownName) displays it, and
//! a device path as [`uefi_formats::proto::device_path::text::to_text`] returns it, so that a log can't forge a line.

pub use self::blocks::{push_event_blocks, push_header_block};

mod blocks;
mod hex_lines;
pub(crate) mod names;
pub(crate) mod parts;
