//! `uefi_audit COMMAND ..` audits event logs of measured boot.

use std::process::ExitCode;

fn main() -> ExitCode {
    uefi_tools::uefi_audit::main()
}
