// @generated from proved source. It is not edited.

use crate::uefi_listing::command::Command;
use crate::uefi_listing::listing::{Outcome, listing};
use crate::support::alloc::AllocError;
use crate::host::io::Write;

/// The error of [`run`](fn@run).
#[derive(Clone, Copy, PartialEq, Eq, Debug)]
pub enum RunError {
    /// An allocation failed, and nothing was written.
    Memory,
    /// A write failed or accepted no bytes. The count is that of the listing's bytes written
    /// before.
    Output(usize),
}

impl From<AllocError> for RunError {
    fn from(_error: AllocError) -> RunError {
        RunError::Memory
    }
}

/// Makes the listing of the bytes in memory, and writes it.
///
/// # Errors
///
/// - [`RunError::Memory`] if an allocation fails. Nothing was written then.
/// - [`RunError::Output`] if a write fails or accepts no bytes, with the count of those that were
///   written before. An error of the kind `Interrupted` ends the run like every other.
pub fn run<W: Write>(
    command: &Command,
    bytes: &[u8],
    out: &mut W,
) -> Result<Outcome, RunError> {
    let (text, outcome) = listing(command, bytes)?;
    let mut sent = 0;
    while sent < text.len() {
        match out.write(&text[sent..]) {
            Ok(0) | Err(_) => return Err(RunError::Output(sent)),
            Ok(taken) => sent += taken,
        }
    }
    Ok(outcome)
}
