// @generated from proved source. It is not edited.

//! `uefi_boot COMMAND [--json] OPERAND` prints boot options, and device paths as text, in lines or in
//! JSON.
//!
//! [`program`] takes the words of the command line, which the library `boot_listing` judges, and has
//! the library `file_input` read the files. `boot_listing` makes the text in memory.

use std::process::ExitCode;

mod failure;
mod folder;
mod program;

pub fn main() -> ExitCode {
    let rt = crate::host::HostRuntime;
    program::start(&rt)
}
