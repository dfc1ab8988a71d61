// @generated from proved source. It is not edited.

//! Files and standard input, read to their end.
//!
//! [`read_file`] reads the file at a path, [`read_to_end`] any reader. Both take the most reads that
//! they may make, so they return also where an input has no end.

pub use self::error::ReadError;
pub use self::reading::{MAX_READS, PART_LENGTH, STANDARD_INPUT, read_file, read_to_end};

mod error;
mod reading;
