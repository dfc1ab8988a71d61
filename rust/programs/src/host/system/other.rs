//! Other systems, by Rust's own calls.

use std::ffi::OsString;
use std::{fmt, fs, io};

/// Calls a function with the bytes of the argument at an index, if there is one.
pub(in crate::host) fn argument<T>(index: usize, with: impl FnOnce(&[u8]) -> T) -> Option<T> {
    std::env::args_os().nth(index).map(|argument| with(argument.as_encoded_bytes()))
}

/// Writes what the operating system says of an error's number.
pub(in crate::host) fn write_message(f: &mut fmt::Formatter<'_>, code: i32) -> fmt::Result {
    write!(f, "{}", std::io::Error::from_raw_os_error(code))
}

/// The names of the files and folders that are in a folder.
#[derive(Debug)]
pub struct Names {
    entries: fs::ReadDir,
    name: OsString,
}

impl Names {
    /// Opens a folder.
    pub(in crate::host) fn open(path: &str) -> io::Result<Names> {
        Ok(Names { entries: fs::read_dir(path)?, name: OsString::new() })
    }

    /// Returns the next name, or `None` at the end.
    pub(in crate::host) fn next_name(&mut self) -> io::Result<Option<&[u8]>> {
        let Some(entry) = self.entries.next() else {
            return Ok(None);
        };
        self.name = entry?.file_name();
        Ok(Some(self.name.as_encoded_bytes()))
    }
}
