// @generated from proved source. It is not edited.

//! The lines and the JSON of the program `uefi_boot`, over bytes in memory.
//!
//! [`command`] judges the words of the command line. Each command has a module of its name, which
//! appends what it prints to a text: [`list`] the boot options of a folder of variables, [`option`]
//! one boot option, [`text`] the text of a device path, and [`path`] the bytes of a path's text.
//! [`variables`] finds the boot manager's variables among the files of a folder.
//!
//! A failed allocation is the only error of these calls.

pub use self::outcome::Outcome;

pub mod command;
pub mod json;
pub mod list;
pub mod option;
mod outcome;
pub mod path;
mod refusal;
pub mod text;
pub mod variables;
