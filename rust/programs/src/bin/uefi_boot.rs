//! `uefi_boot COMMAND OPERAND` prints boot options, and device paths as text.

use std::process::ExitCode;

fn main() -> ExitCode {
    uefi_tools::uefi_boot::main()
}
