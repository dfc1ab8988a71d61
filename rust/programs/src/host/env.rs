//! The arguments of the program.

use super::io;
use super::rt::Env;
use crate::support::fallible::*;

/// Why a buffer wasn't filled with an argument.
#[derive(Clone, Copy, PartialEq, Eq, Debug)]
pub enum FillError {
    /// There is none at the index.
    NotPresent,
    /// The buffer is too short.
    TooLong,
}

/// The most bytes that Linux passes in one argument.
const LONGEST_ARGUMENT: usize = 131_072;

/// Returns the arguments, of which the first is the program's name.
///
/// # Errors
///
/// [`io::ErrorKind::OutOfMemory`] if an allocation fails, [`io::ErrorKind::InvalidData`] if an argument isn't UTF-8.
pub fn args<R: Env>(rt: &R) -> io::Result<std::vec::IntoIter<String>> {
    let no_memory = |_| io::Error::Kind(io::ErrorKind::OutOfMemory);
    let mut buffer = Vec::fallible_from_elem(0, LONGEST_ARGUMENT).map_err(no_memory)?;
    let mut words = Vec::new();
    loop {
        match rt.arg(words.len(), &mut buffer) {
            Err(FillError::NotPresent) => return Ok(words.into_iter()),
            Err(FillError::TooLong) => return Err(io::Error::Kind(io::ErrorKind::OutOfMemory)),
            Ok(length) => {
                let word = core::str::from_utf8(&buffer[..length]).map_err(|_| io::Error::Kind(io::ErrorKind::InvalidData))?;
                let word = <String as FallibleString>::fallible_from_str(word).map_err(no_memory)?;
                words.fallible_push(word).map_err(no_memory)?;
            }
        }
    }
}
