//! What a part of a program may do, as bounds of its handle of the host.

use super::env::FillError;
use super::io::{Result, Stream};
use super::system::Names;
use std::fs::{File, Metadata};

/// Files and folders are opened.
pub trait Files {
    /// Opens the file at a path, to be read.
    fn open(&self, path: &str) -> Result<File>;

    /// Opens the folder at a path, of which the names are read.
    fn open_dir(&self, path: &str) -> Result<Names>;

    /// Returns what is known of the file or folder at a path.
    fn metadata(&self, path: &str) -> Result<Metadata>;
}

/// Arguments are read.
pub trait Env {
    /// Copies the argument at an index to the start of a buffer, and returns its length. The first one is the program's name.
    fn arg(&self, index: usize, buffer: &mut [u8]) -> core::result::Result<usize, FillError>;
}

/// Standard input is read.
pub trait Input {
    /// Returns standard input.
    fn reader(&self) -> Stream;
}

/// Standard output is written to.
pub trait Print {
    /// Returns standard output.
    fn writer(&self) -> Stream;
}

/// Standard error is written to.
pub trait Eprint {
    /// Writes to standard error.
    fn tell(&self, text: &[u8]) -> Result<()>;
}
