//! Streams, and why a read or a write failed.

use super::rt::{Eprint, Print};
use super::system;
use std::fmt;
use std::fs::File;

pub use std::io::ErrorKind;

/// Why a call of the host failed. It owns no memory.
#[derive(Clone, Copy, PartialEq, Eq, Debug)]
pub enum Error {
    /// The operating system's number.
    System(i32),
    /// No number of it.
    Kind(ErrorKind),
    /// A name in a folder isn't UTF-8: Rust's own kind is newer than the oldest rustc.
    Name,
}

/// A result of a call of the host.
pub type Result<T> = core::result::Result<T, Error>;

impl Error {
    /// Returns what kind of error it is.
    pub fn kind(&self) -> ErrorKind {
        match *self {
            Error::System(code) => std::io::Error::from_raw_os_error(code).kind(),
            Error::Kind(kind) => kind,
            Error::Name => ErrorKind::InvalidData,
        }
    }
}

impl From<std::io::Error> for Error {
    fn from(error: std::io::Error) -> Error {
        error.raw_os_error().map_or(Error::Kind(error.kind()), Error::System)
    }
}

/// Writes what the operating system says of its number, or what Rust says of a kind.
impl fmt::Display for Error {
    fn fmt(&self, f: &mut fmt::Formatter<'_>) -> fmt::Result {
        match *self {
            Error::System(code) => system::write_message(f, code),
            Error::Kind(kind) => write!(f, "{kind}"),
            Error::Name => f.write_str("invalid filename"),
        }
    }
}

impl core::error::Error for Error {}

/// What is read from.
pub trait Read {
    /// Reads bytes to the start of a buffer, and returns how many; none at the end.
    ///
    /// # Errors
    ///
    /// If the operating system can't read.
    fn read(&mut self, buffer: &mut [u8]) -> Result<usize>;
}

impl<R: std::io::Read> Read for R {
    fn read(&mut self, buffer: &mut [u8]) -> Result<usize> {
        Ok(std::io::Read::read(self, buffer)?)
    }
}

/// What is written to.
pub trait Write {
    /// Writes bytes from the first on, and returns how many were accepted.
    ///
    /// # Errors
    ///
    /// If the operating system can't write.
    fn write(&mut self, bytes: &[u8]) -> Result<usize>;

    /// Writes all bytes. A write that is interrupted is tried again.
    ///
    /// # Errors
    ///
    /// If a write fails or accepts no bytes.
    fn write_all(&mut self, bytes: &[u8]) -> Result<()> {
        let mut rest = bytes;
        while !rest.is_empty() {
            match self.write(rest) {
                Ok(0) => return Err(Error::Kind(ErrorKind::WriteZero)),
                Ok(count) => rest = &rest[count..],
                Err(error) if error.kind() == ErrorKind::Interrupted => {}
                Err(error) => return Err(error),
            }
        }
        Ok(())
    }
}

impl<W: std::io::Write> Write for W {
    fn write(&mut self, bytes: &[u8]) -> Result<usize> {
        Ok(std::io::Write::write(self, bytes)?)
    }
}

/// A standard stream without a buffer, or why there is none.
#[derive(Debug)]
pub struct Stream(Result<File>);

impl Stream {
    /// Returns the stream of a descriptor.
    pub(super) fn new(file: std::io::Result<File>) -> Stream {
        Stream(file.map_err(Error::from))
    }
}

impl Read for Stream {
    fn read(&mut self, buffer: &mut [u8]) -> Result<usize> {
        self.0.as_mut().map_err(|error| *error)?.read(buffer)
    }
}

impl Write for Stream {
    fn write(&mut self, bytes: &[u8]) -> Result<usize> {
        self.0.as_mut().map_err(|error| *error)?.write(bytes)
    }
}

/// Returns standard output.
pub fn writer<R: Print>(rt: &R) -> Stream {
    rt.writer()
}

/// The length of the parts in which texts are written to standard error.
const PART: usize = 1 << 10;

/// A text that is on its way to standard error: no part of it is on the heap.
pub struct Told<'a, R: Eprint> {
    rt: &'a R,
    part: [u8; PART],
    length: usize,
    end: Result<()>,
}

impl<'a, R: Eprint> Told<'a, R> {
    /// Writes what is displayed to standard error.
    ///
    /// # Errors
    ///
    /// If a write fails.
    pub fn tell(rt: &'a R, text: fmt::Arguments<'_>) -> Result<()> {
        let mut told = Told { rt, part: [0; PART], length: 0, end: Ok(()) };
        let _ = fmt::Write::write_fmt(&mut told, text);
        told.send();
        told.end
    }

    /// Writes what is in the part.
    fn send(&mut self) {
        let end = self.rt.tell(&self.part[..self.length]);
        self.end = self.end.and(end);
        self.length = 0;
    }
}

impl<R: Eprint> fmt::Write for Told<'_, R> {
    fn write_str(&mut self, text: &str) -> fmt::Result {
        let mut rest = text.as_bytes();
        while !rest.is_empty() {
            let count = rest.len().min(PART - self.length);
            let (now, later) = rest.split_at(count);
            self.part[self.length..self.length + count].copy_from_slice(now);
            self.length += count;
            rest = later;
            if self.length == PART {
                self.send();
            }
        }
        Ok(())
    }
}

/// `eprint!` of a handle of the host, with a result.
macro_rules! fallible_eprint {
    ($rt:expr, $($form:tt)*) => { $crate::host::io::Told::tell($rt, format_args!($($form)*)) };
}

/// `eprintln!` of a handle of the host, with a result.
macro_rules! fallible_eprintln {
    ($rt:expr, $($form:tt)*) => { $crate::host::io::Told::tell($rt, format_args!("{}\n", format_args!($($form)*))) };
}
