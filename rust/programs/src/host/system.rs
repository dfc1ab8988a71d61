//! What the operating system gives a process. On Linux with the library of GNU nothing here allocates, but for a path of
//! 384 bytes or more; elsewhere Rust's own calls take arguments, messages and names in a folder, and end the program if that fails.

use super::io::{Error, ErrorKind};
use std::fs::File;

#[cfg(all(target_os = "linux", target_env = "gnu"))]
mod gnu;
#[cfg(all(target_os = "linux", target_env = "gnu"))]
pub use gnu::Names;
#[cfg(all(target_os = "linux", target_env = "gnu"))]
pub(super) use gnu::{argument, write_message};
#[cfg(not(all(target_os = "linux", target_env = "gnu")))]
mod other;
#[cfg(not(all(target_os = "linux", target_env = "gnu")))]
pub use other::Names;
#[cfg(not(all(target_os = "linux", target_env = "gnu")))]
pub(super) use other::{argument, write_message};

/// From this length on Rust's calls copy a path to the heap, for the NUL after it.
const LONG_PATH: usize = 384;

/// Returns an error if there is no memory for the copy of a long path, which Rust makes and ends the program without it.
pub(super) fn reserve_path(path: &str) -> Result<(), Error> {
    let room = if path.len() < LONG_PATH { 0 } else { path.len() + 1 };
    Vec::<u8>::new().try_reserve_exact(room).map_err(|_| Error::Kind(ErrorKind::OutOfMemory))
}

/// Returns standard input without Rust's buffer.
#[cfg(unix)]
pub(super) fn standard_input() -> std::io::Result<File> {
    stream(0)
}

/// Returns standard output without Rust's buffer, which says of a closed stream that it was written to.
#[cfg(unix)]
pub(super) fn standard_output() -> std::io::Result<File> {
    stream(1)
}

/// Returns a standard stream. Rust's handle of it would make a buffer first, and end the program without memory for one.
#[cfg(unix)]
fn stream(descriptor: std::os::fd::RawFd) -> std::io::Result<File> {
    check_open(descriptor)?;
    // SAFETY: Rust has the descriptors 0 to 2 open before `main`, and nothing closes them.
    let stream = unsafe { std::os::fd::BorrowedFd::borrow_raw(descriptor) };
    Ok(File::from(stream.try_clone_to_owned()?))
}

/// Returns standard input without Rust's buffer.
#[cfg(windows)]
pub(super) fn standard_input() -> std::io::Result<File> {
    use std::os::windows::io::AsHandle;
    Ok(File::from(std::io::stdin().as_handle().try_clone_to_owned()?))
}

/// Returns standard output without Rust's buffer.
#[cfg(windows)]
pub(super) fn standard_output() -> std::io::Result<File> {
    use std::os::windows::io::AsHandle;
    Ok(File::from(std::io::stdout().as_handle().try_clone_to_owned()?))
}

/// Returns an error if a stream was closed as the program was started: before `main`, Rust opens `/dev/null` in its place.
#[cfg(all(target_os = "linux", target_env = "gnu"))]
fn check_open(descriptor: i32) -> std::io::Result<()> {
    if gnu::was_closed(descriptor) { Err(std::io::Error::from_raw_os_error(gnu::EBADF)) } else { Ok(()) }
}

/// Elsewhere a closed stream is `/dev/null`.
#[cfg(all(unix, not(all(target_os = "linux", target_env = "gnu"))))]
fn check_open(_descriptor: i32) -> std::io::Result<()> {
    Ok(())
}
