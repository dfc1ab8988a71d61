// @generated from proved source. It is not edited.

use crate::host::rt::Input;
use crate::support::fallible::*;

use crate::file_input::error::ReadError;
use crate::host::fs;
use crate::host::io::{ErrorKind, Read};
use crate::host::rt::Files;

/// The most reads that the programs make of a file. As many whole parts are 256 TiB.
pub const MAX_READS: u64 = 1 << 32;

/// The path of standard input.
pub const STANDARD_INPUT: &str = "/dev/stdin";

/// The most bytes that one read takes.
pub const PART_LENGTH: usize = 1 << 16;

/// Returns the bytes that a reader gives up to its end.
///
/// A read takes at most [`PART_LENGTH`] bytes. An interrupted one is tried again, and counts as a
/// read. The last one finds the end.
///
/// # Errors
///
/// What was read is lost then.
///
/// - [`ReadError::Memory`] if an allocation fails.
/// - [`ReadError::Io`] if a read fails, unless it was interrupted.
/// - [`ReadError::TooManyReads`] if none of `max_reads` reads finds the end. More than
///   `(max_reads - 1) * PART_LENGTH` bytes are never read to their end.
pub fn read_to_end<R: Read>(
    reader: &mut R,
    max_reads: u64,
) -> Result<Vec<u8>, ReadError> {
    let mut bytes = Vec::new();
    let mut part = [0; PART_LENGTH];
    for _ in 0..max_reads {
        match reader.read(&mut part) {
            Ok(0) => return Ok(bytes),
            Ok(count) => bytes.fallible_extend_from_slice(&part[..count])?,
            Err(error) if error.kind() == ErrorKind::Interrupted => {}
            Err(error) => return Err(ReadError::Io(error)),
        }
    }
    Err(ReadError::TooManyReads)
}

/// Returns the bytes of the file at a path.
///
/// [`STANDARD_INPUT`] is read by its handle, since a pipe that another user made can't be opened
/// again by its name.
///
/// # Errors
///
/// Those of [`read_to_end`], and [`ReadError::Io`] if the file can't be opened.
pub fn read_file<R: Files + Input>(
    rt: &R,
    path: &str,
    max_reads: u64,
) -> Result<Vec<u8>, ReadError> {
    if path == STANDARD_INPUT {
        return read_to_end(&mut rt.reader(), max_reads);
    }
    let mut file = fs::open(rt, path)?;
    read_to_end(&mut file, max_reads)
}
