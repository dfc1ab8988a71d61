// @generated from proved source. It is not edited.

use crate::host::rt::{Eprint, Input, Print};
use crate::support::fallible::*;

use crate::file_input::{MAX_READS, ReadError, read_file};
use crate::host::io::Write;
use std::process::ExitCode;
use crate::host::rt::{Env, Files};
use crate::host::env;
use crate::host::io;
use crate::uefi_listing::command::{command_and_file, is_moved};
use crate::uefi_listing::listing::Outcome;
use crate::uefi_listing::run::{RunError, run};

/// The line that `--version` prints.
const VERSION_LINE: &str = "uefi_list 0.1.0\n";

/// Why the program didn't write the whole listing.
#[derive(Clone, Copy, Debug)]
enum Failure {
    /// The words ask for no listing.
    OtherWords,
    /// The words ask for a command that the program `uefi_boot` has now.
    Moved,
    /// The file wasn't read, whatever the cause.
    File,
    /// A write failed or accepted no bytes.
    Output,
    /// An allocation failed.
    Memory,
}

impl Failure {
    /// Returns the exit status.
    fn status(self) -> u8 {
        match self {
            Failure::OtherWords | Failure::Moved => 2,
            Failure::File | Failure::Output | Failure::Memory => 3,
        }
    }

    /// Returns the line for standard error.
    fn message(self) -> &'static str {
        match self {
            Failure::OtherWords => "usage: uefi_list COMMAND FILE [ARG]",
            Failure::Moved => {
                "uefi_list: option, pathtext and textpath are option, text and path of uefi_boot"
            }
            Failure::File => "uefi_list: file",
            Failure::Output => "uefi_list: output",
            Failure::Memory => "uefi_list: memory",
        }
    }
}

impl From<ReadError> for Failure {
    fn from(_error: ReadError) -> Failure {
        Failure::File
    }
}

impl From<RunError> for Failure {
    fn from(error: RunError) -> Failure {
        match error {
            RunError::Memory => Failure::Memory,
            RunError::Output(_) => Failure::Output,
        }
    }
}

/// Returns the words after the program's name. If one isn't UTF-8, they ask for no listing.
fn read_words<R: Env>(rt: &R) -> Result<Vec<String>, Failure> {
    match env::args(rt) {
        Ok(args) => match args.skip(1).fallible_collect() {
            Ok(words) => Ok(words),
            Err(_) => Err(Failure::Memory),
        },
        Err(error) if error.kind() == io::ErrorKind::OutOfMemory => Err(Failure::Memory),
        Err(_) => Err(Failure::OtherWords),
    }
}

/// Returns why words that ask for no listing do so.
fn other_words(words: &[String]) -> Failure {
    match words {
        [name, _] if is_moved(name.as_str()) => Failure::Moved,
        _ => Failure::OtherWords,
    }
}

/// Returns whether the words ask for the version.
fn asks_version(words: &[String]) -> bool {
    matches!(words, [word] if word.as_str() == "--version")
}

/// Prints the version.
fn print_version<R: Print>(rt: &R) -> Result<Outcome, Failure> {
    match io::writer(rt).write_all(VERSION_LINE.as_bytes()) {
        Ok(()) => Ok(Outcome::Listed),
        Err(_) => Err(Failure::Output),
    }
}

/// Judges the words, reads the file, and prints its listing; or prints the version, if they ask for it.
fn print_listing<R: Files + Env + Input + Print>(rt: &R) -> Result<Outcome, Failure> {
    let words = read_words(rt)?;
    if asks_version(words.as_slice()) {
        return print_version(rt);
    }
    let Some((command, file)) = command_and_file(words.as_slice()) else {
        return Err(other_words(words.as_slice()));
    };
    let bytes = read_file(rt, file, MAX_READS)?;
    let outcome = run(&command, bytes.as_slice(), &mut io::writer(rt))?;
    Ok(outcome)
}

/// Runs the program, says on standard error why it failed, and returns its exit status.
pub(crate) fn start<R: Files + Env + Input + Print + Eprint>(rt: &R) -> ExitCode {
    match print_listing(rt) {
        Ok(Outcome::Listed) => ExitCode::SUCCESS,
        Ok(Outcome::Refused) => ExitCode::from(1),
        Err(failure) => {
            let message = failure.message();
            // If standard error is closed too, the exit status still tells.
            let _ = fallible_eprintln!(rt, "{message}");
            ExitCode::from(failure.status())
        }
    }
}
