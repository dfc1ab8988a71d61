// @generated from proved source. It is not edited.

//! The readers of UEFI's record formats, as functions for C (`c/uefi_formats.h`).
//!
//! A function takes bytes by a pointer and a length, and most a cursor besides: an offset that the
//! caller keeps. It reads at the cursor and moves it. A function that can fail returns a
//! [`status`]: if that isn't success, all that it could have written is as it was, unless its docs
//! say otherwise. No function keeps anything, allocates, or fails to return.

mod boot_order;
mod character;
mod config;
mod config_name;
mod cursor;
mod digest;
mod event_data;
mod event_digest;
mod guid;
mod hex;
mod info;
mod last_entry;
mod load_option;
mod load_option_write;
mod log;
mod log1;
mod log2;
mod log2_fault;
mod log_read;
mod log_replay;
mod map;
mod names;
mod node_fault;
mod nodes;
mod number;
mod path;
mod path_text;
mod path_write;
mod pci;
mod quote;
mod quote_digest;
mod replay;
mod status;
mod text_writer;
mod time;
mod ucs2;
mod version;
pub mod workspace;
mod write;
mod write_info;
