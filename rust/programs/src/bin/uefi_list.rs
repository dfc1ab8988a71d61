//! `uefi_list COMMAND FILE [ARG]` prints what a file of UEFI records holds.

use std::process::ExitCode;

fn main() -> ExitCode {
    uefi_tools::uefi_list::main()
}
