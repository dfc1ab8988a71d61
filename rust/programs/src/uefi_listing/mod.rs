// @generated from proved source. It is not edited.

//! The listings of the program `uefi_list`, over bytes in memory and any writer.
//!
//! [`command`] judges the words of the command line. [`listing`](mod@listing) makes the listing of
//! bytes in memory, and [`run`](mod@run) writes it.
//!
//! Each command has a module of its name: it appends the lines of what a reader returned to a text
//! ([`path::push_path`], [`log1::push_log`]), and names the errors that bytes are refused with.
//! `log2after` is in `log2`. A failed allocation is the only error of these calls.
//! The crate `shown` displays bytes and numbers for all of them.

pub mod command;
pub mod config;
pub mod info;
pub mod listing;
pub mod log1;
pub mod log2;
pub mod map;
pub mod path;
pub mod pci;
pub mod run;
pub mod time;
