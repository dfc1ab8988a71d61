// @generated from proved source. It is not edited.

//! `uefi_list COMMAND FILE [ARG]` prints what a file of UEFI records holds.
//!
//! A byte goes through it in this order. [`program`] takes the words of the command line, which the
//! library `uefi_listing` judges, and has the library `file_input` read the file. `uefi_listing`
//! makes the listing in memory, and writes it.

use std::process::ExitCode;

mod program;

pub fn main() -> ExitCode {
    let rt = crate::host::HostRuntime;
    program::start(&rt)
}
