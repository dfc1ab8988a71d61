// @generated from proved source. It is not edited.

use crate::host::rt::{Eprint, Input, Print};
use crate::support::fallible::*;

use crate::uefi_audit::command_line::matches_of;
use crate::uefi_audit::commands::perform;
use crate::uefi_audit::failure::{Failure, Status, exit_code};
use crate::uefi_audit::file_name::FileName;
use crate::uefi_audit::request::request_of;
use crate::host::env::FillError;
use std::process::ExitCode;
use crate::host::rt::{Env, Files};

/// The longest argument that Linux passes, in bytes.
const LONGEST_ARGUMENT: usize = 131_072;

/// Returns the words of the arguments, of which the first is the program's name.
fn read_arguments<R: Env>(rt: &R) -> Result<Vec<String>, Failure> {
    let mut words = Vec::new();
    let mut buffer = Vec::fallible_from_elem(0, LONGEST_ARGUMENT)?;
    for index in 0..usize::MAX {
        let length = match rt.arg(index, buffer.as_mut_slice()) {
            Ok(length) => length,
            Err(FillError::NotPresent) => break,
            Err(FillError::TooLong) => return Err(Failure::Memory),
        };
        let word = FileName::word_of(&buffer.as_slice()[..length])?;
        if words.fallible_push(word).is_err() {
            return Err(Failure::Memory);
        }
    }
    Ok(words)
}

/// Reads the arguments, and does what they ask for.
fn audit<R: Files + Env + Input + Print + Eprint>(rt: &R) -> Result<Status, Failure> {
    let arguments = read_arguments(rt)?;
    let matches = match matches_of(arguments.as_slice()) {
        Ok(matches) => matches,
        Err(error) => return Err(print_error(rt, &error)),
    };
    let Some((name, of)) = matches.subcommand() else {
        return Err(Failure::Arguments);
    };
    let Some((request, reading)) = request_of(name, of) else {
        let _ = fallible_eprintln!(rt, "uefi_audit: --last-entry takes a number or none");
        return Err(Failure::Arguments);
    };
    perform(rt, &request, reading)
}

/// Prints what `clap` says of the arguments, and returns why the program ends.
fn print_error<R: Print + Eprint>(rt: &R, error: &crate::clap::Error) -> Failure {
    let failure = Failure::of(error);
    if matches!(failure, Failure::Memory) {
        return failure;
    }
    match error.print(rt) {
        Ok(()) => failure,
        Err(cause) => Failure::Output(cause),
    }
}

/// Runs the program, says on standard error why it failed, and returns its exit status.
pub(crate) fn start<R: Files + Env + Input + Print + Eprint>(rt: &R) -> ExitCode {
    let end = audit(rt);
    if let Err(failure) = &end {
        if !failure.is_told() {
            // If standard error is closed too, the exit status still tells.
            let _ = fallible_eprintln!(rt, "uefi_audit: {failure}");
        }
    }
    ExitCode::from(exit_code(end))
}
