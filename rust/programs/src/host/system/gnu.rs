//! Linux with the library of GNU: it calls the functions of a program's section `.init_array` before `main`, with the
//! program's arguments. Rust's own library relies on that too. It has `getdents64` from version 2.30 on. The package's only
//! `unsafe` blocks are here, and where a standard stream is named by its number.

use core::ffi::{CStr, c_char, c_int, c_void};
use std::fs::File;
use std::os::fd::AsRawFd;
use std::{fmt, io};
use std::sync::atomic::{AtomicI32, AtomicPtr, AtomicU8, Ordering};

/// The number of the error of a descriptor that is closed.
pub(super) const EBADF: i32 = 9;

/// The command of `fcntl` that reads a descriptor's flags, which changes nothing.
const F_GETFD: c_int = 1;

/// The most bytes of a message, with the NUL after it.
const MESSAGE: usize = 128;

/// How many arguments there are.
static COUNT: AtomicI32 = AtomicI32::new(0);

/// The arguments. They live as long as the process.
static ARGUMENTS: AtomicPtr<*const c_char> = AtomicPtr::new(core::ptr::null_mut());

/// A bit for each of the descriptors 0 to 2 that was closed.
static CLOSED: AtomicU8 = AtomicU8::new(0);

unsafe extern "C" {
    safe fn fcntl(descriptor: c_int, command: c_int, ...) -> c_int;
    /// The one of POSIX: it writes the message of an error and a NUL to a buffer.
    #[link_name = "__xpg_strerror_r"]
    fn strerror_r(code: c_int, buffer: *mut c_char, length: usize) -> c_int;
    /// The call of Linux: it writes entries of a folder to a buffer, and returns their length.
    fn getdents64(descriptor: c_int, buffer: *mut c_void, length: usize) -> isize;
}

#[used]
#[unsafe(link_section = ".init_array.00098")]
static AT_START: extern "C" fn(c_int, *mut *const c_char, *const *const c_char) = at_start;

/// Keeps the arguments, and which of the descriptors 0 to 2 are closed.
extern "C" fn at_start(count: c_int, arguments: *mut *const c_char, _variables: *const *const c_char) {
    COUNT.store(count, Ordering::Relaxed);
    ARGUMENTS.store(arguments, Ordering::Relaxed);
    let closed = (0..3).filter(|it| fcntl(*it, F_GETFD) == -1).fold(0, |bits, it| bits | 1 << it);
    CLOSED.store(closed, Ordering::Relaxed);
}

/// Returns whether a descriptor was closed as the program was started.
pub(super) fn was_closed(descriptor: i32) -> bool {
    CLOSED.load(Ordering::Relaxed) >> descriptor & 1 == 1
}

/// Calls a function with the bytes of the argument at an index, if there is one.
pub(in crate::host) fn argument<T>(index: usize, with: impl FnOnce(&[u8]) -> T) -> Option<T> {
    let arguments = ARGUMENTS.load(Ordering::Relaxed);
    if arguments.is_null() || index >= usize::try_from(COUNT.load(Ordering::Relaxed)).unwrap_or(0) {
        return None;
    }
    // SAFETY: each of the arguments before the count is a text with a NUL at its end, which nothing changes.
    let argument = unsafe { CStr::from_ptr(*arguments.add(index)) };
    Some(with(argument.to_bytes()))
}

/// Writes what the operating system says of an error's number, as Rust does.
pub(in crate::host) fn write_message(f: &mut fmt::Formatter<'_>, code: i32) -> fmt::Result {
    let mut buffer = [0; MESSAGE];
    // SAFETY: the buffer has as many bytes as the call is told.
    let end = unsafe { strerror_r(code, buffer.as_mut_ptr().cast(), MESSAGE) };
    let message = CStr::from_bytes_until_nul(&buffer).ok().and_then(|it| it.to_str().ok());
    match (end, message) {
        (0, Some(message)) => write!(f, "{message} (os error {code})"),
        _ => write!(f, "Unknown error {code} (os error {code})"),
    }
}

/// How many bytes of entries are read at a time.
const ENTRIES: usize = 4096;

/// Where an entry (`struct linux_dirent64`) has its length, in two bytes.
const LENGTH_OFFSET: usize = 16;

/// Where it has its name, with a NUL after it.
const NAME_OFFSET: usize = 19;

/// Entries of a folder, as Linux aligns them.
#[repr(align(8))]
struct Entries([u8; ENTRIES]);

/// The names of the files and folders that are in a folder, which Rust's calls would copy to the heap.
pub struct Names {
    folder: File,
    entries: Entries,
    start: usize,
    end: usize,
}

impl Names {
    /// Opens a folder.
    pub(in crate::host) fn open(path: &str) -> io::Result<Names> {
        Ok(Names { folder: File::open(path)?, entries: Entries([0; ENTRIES]), start: 0, end: 0 })
    }

    /// Returns the next name, or `None` at the end.
    pub(in crate::host) fn next_name(&mut self) -> io::Result<Option<&[u8]>> {
        if self.start == self.end {
            (self.start, self.end) = (0, self.read()?);
        }
        let entries = &self.entries.0[self.start..self.end];
        let Some(&[low, high]) = entries.get(LENGTH_OFFSET..LENGTH_OFFSET + 2) else {
            return Ok(None);
        };
        let length = usize::from(u16::from_ne_bytes([low, high]));
        self.start += length;
        Ok(CStr::from_bytes_until_nul(&entries[NAME_OFFSET..length]).ok().map(CStr::to_bytes))
    }

    /// Reads the next entries to the start of the buffer, and returns their length.
    fn read(&mut self) -> io::Result<usize> {
        // SAFETY: the buffer has as many bytes as the call is told.
        let length = unsafe { getdents64(self.folder.as_raw_fd(), self.entries.0.as_mut_ptr().cast(), ENTRIES) };
        match usize::try_from(length).map_err(|_| io::Error::last_os_error()) {
            // A folder that was removed has no more names.
            Err(error) if error.kind() == io::ErrorKind::NotFound => Ok(0),
            read => read,
        }
    }
}

impl fmt::Debug for Names {
    fn fmt(&self, f: &mut fmt::Formatter<'_>) -> fmt::Result {
        f.debug_struct("Names").field("folder", &self.folder).finish_non_exhaustive()
    }
}
