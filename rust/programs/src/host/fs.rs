//! Files and folders of the host.

use super::io::{Error, ErrorKind, Result};
use super::rt::Files;
use super::system::Names;
use crate::support::alloc::AllocError;
use crate::support::fallible::*;
use std::fs::{File, Metadata};

/// Opens the file at a path, to be read.
///
/// # Errors
///
/// If the operating system can't open it.
pub fn open<R: Files>(rt: &R, path: &str) -> Result<File> {
    rt.open(path)
}

/// Returns what is known of the file or folder at a path.
///
/// # Errors
///
/// If the operating system knows nothing of it.
pub fn metadata<R: Files>(rt: &R, path: &str) -> Result<Metadata> {
    rt.metadata(path)
}

/// Returns the entries of the folder at a path, in the order in which the operating system has them.
///
/// # Errors
///
/// If the operating system can't open it, or an allocation fails.
pub fn read_dir<R: Files>(rt: &R, path: &str) -> Result<ReadDir> {
    // The slash has a link to a folder followed, and a file refused.
    let end = if path.is_empty() || path.ends_with('/') { "" } else { "/" };
    let folder = joined(path, end)?;
    let names = rt.open_dir(&folder)?;
    Ok(ReadDir { folder, names, is_done: false })
}

/// The entries of a folder: all but itself and the folder that it is in. After a failed read there is none.
#[derive(Debug)]
pub struct ReadDir {
    folder: String,
    names: Names,
    is_done: bool,
}

impl Iterator for ReadDir {
    type Item = Result<DirEntry>;

    fn next(&mut self) -> Option<Result<DirEntry>> {
        while !self.is_done {
            match self.names.next_name() {
                Ok(Some(b"." | b"..")) => {}
                Ok(Some(name)) => return Some(DirEntry::new(&self.folder, name)),
                end => {
                    self.is_done = true;
                    return end.err().map(|error| Err(error.into()));
                }
            }
        }
        None
    }
}

/// A file or folder that is in a folder.
#[derive(Debug)]
pub struct DirEntry {
    path: String,
    name_start: usize,
}

impl DirEntry {
    /// Returns the entry of a name, which has to be UTF-8.
    fn new(folder: &str, name: &[u8]) -> Result<DirEntry> {
        let name = core::str::from_utf8(name).map_err(|_| Error::Name)?;
        Ok(DirEntry { path: joined(folder, name)?, name_start: folder.len() })
    }

    /// Returns the path of the folder with the name.
    pub fn path(&self) -> &String {
        &self.path
    }

    /// Returns the name.
    pub fn file_name(&self) -> &str {
        &self.path[self.name_start..]
    }
}

/// Returns two texts as one.
fn joined(one: &str, two: &str) -> Result<String> {
    let no_memory = |_: AllocError| Error::Kind(ErrorKind::OutOfMemory);
    let mut all = <String as FallibleString>::fallible_with_capacity(one.len() + two.len()).map_err(no_memory)?;
    all.fallible_push_str(one).map_err(no_memory)?;
    all.fallible_push_str(two).map_err(no_memory)?;
    Ok(all)
}
