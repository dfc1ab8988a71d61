// @generated from proved source. It is not edited.

//! Times, and the records in which UEFI firmware describes files and file systems (UEFI 2.10, 8.3
//! and 13.5).
//!
//! - [`Time`]: sixteen bytes. Begin with [`Time::try_from`] or [`Time::new`].
//! - [`FileInfo`], [`FileSystemInfo`] and [`FileSystemVolumeLabel`]: views of records. Begin with
//!   [`FileInfo::from_uefi`] to read one, and with [`FileInfo::new`] to write one.
//! - [`Daylight`] and [`FileAttribute`]: sets of flags.
//!
//! Nothing here allocates memory.

pub use self::file::{
    FileInfo, FileInfoCreationError, FileProtocolInfo, FileSystemInfo, FileSystemVolumeLabel,
    write_file_info, write_file_system_info, write_file_system_volume_label,
};
// For the functions for C, or for tests: they compile these files too.
#[allow(unused_imports)]
pub(crate) use self::file::first_zero_unit;
pub use self::flags::{Daylight, FileAttribute};
pub use self::time::{Time, TimeByteConversionError, TimeError, TimeParams};

// A time, its parts and its errors.
mod time;

// Sets of flags.
mod flags;

// The records.
mod file;
