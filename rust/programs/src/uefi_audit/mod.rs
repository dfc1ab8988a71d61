// @generated from proved source. It is not edited.

//! `uefi_audit COMMAND ..` audits event logs of measured boot.
//!
//! A byte goes through it in this order. [`program`] takes the arguments, which [`command_line`]
//! matches by `clap`. [`request`] says what they ask for, and [`commands`] does it. [`input`] reads
//! the files, and [`log_file`] a log in one of them, once. [`events`], [`replay`], [`verification`],
//! [`quote_check`], [`comparison`] and [`checking`] compute what is asked for and render it as a
//! [`report`] in memory, by the libraries `uefi_audits` and `audit_text`. It is then written.
//!
//! `tests/audit` tries that.

use std::process::ExitCode;

mod checking;
mod command_line;
mod commands;
mod comparison;
mod events;
mod failure;
mod file_name;
mod input;
mod log_file;
mod program;
mod quote;
mod quote_check;
mod replay;
mod replay_counts;
mod report;
mod request;
mod task;
mod verification;

pub fn main() -> ExitCode {
    let rt = crate::host::HostRuntime;
    program::start(&rt)
}
