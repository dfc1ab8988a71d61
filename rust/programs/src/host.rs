//! The host of a program: files, streams, arguments, as the standard library of the proved source has them. By hand: no
//! contract can speak of what they give and take.
//!
//! Nothing here aborts if an allocation fails, but for what `system` says.

pub mod env;
pub mod fs;
#[macro_use]
pub mod io;
pub mod rt;
mod system;

use std::fs::{File, Metadata};
use std::io::Write as _;

/// The host: the operating system's process.
#[derive(Clone, Copy, Debug)]
pub struct HostRuntime;

impl rt::Files for HostRuntime {
    fn open(&self, path: &str) -> io::Result<File> {
        system::reserve_path(path)?;
        Ok(File::open(path)?)
    }

    fn open_dir(&self, path: &str) -> io::Result<system::Names> {
        system::reserve_path(path)?;
        Ok(system::Names::open(path)?)
    }

    fn metadata(&self, path: &str) -> io::Result<Metadata> {
        system::reserve_path(path)?;
        Ok(std::fs::metadata(path)?)
    }
}

impl rt::Env for HostRuntime {
    fn arg(&self, index: usize, buffer: &mut [u8]) -> Result<usize, env::FillError> {
        system::argument(index, |argument| {
            let room = buffer.get_mut(..argument.len()).ok_or(env::FillError::TooLong)?;
            room.copy_from_slice(argument);
            Ok(argument.len())
        })
        .unwrap_or(Err(env::FillError::NotPresent))
    }
}

impl rt::Input for HostRuntime {
    fn reader(&self) -> io::Stream {
        io::Stream::new(system::standard_input())
    }
}

impl rt::Print for HostRuntime {
    fn writer(&self) -> io::Stream {
        io::Stream::new(system::standard_output())
    }
}

impl rt::Eprint for HostRuntime {
    fn tell(&self, text: &[u8]) -> io::Result<()> {
        // It has no buffer, so it allocates nothing.
        Ok(std::io::stderr().write_all(text)?)
    }
}
