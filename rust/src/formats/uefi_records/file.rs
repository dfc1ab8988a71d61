// @generated from proved source. It is not edited.

//! The records that describe files and file systems: views that are read from bytes or written to
//! them.

pub use self::creation_error::FileInfoCreationError;
pub use self::file_info::FileInfo;
pub use self::file_system_info::FileSystemInfo;
pub use self::file_system_volume_label::FileSystemVolumeLabel;
pub(crate) use self::first_zero::first_zero_unit;
pub use self::protocol_info::FileProtocolInfo;
pub use self::write::{write_file_info, write_file_system_info, write_file_system_volume_label};

// The three records.
mod file_info;
mod file_system_info;
mod file_system_volume_label;

// What they share, and their GUIDs.
mod first_zero;
mod identity;
mod name;

// Their writers.
mod write;

// The error of a writer, and the trait of all records.
mod creation_error;
mod protocol_info;
