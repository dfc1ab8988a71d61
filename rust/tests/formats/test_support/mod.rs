// @generated from proved source. It is not edited.

//! What tests share: bytes written as hex, checks that name their row, tables of rows, samples, and
//! [`Refusing`], an allocator that refuses requests.
//!
//! A row is data: an input, mostly bytes as hex with spaces where they help the reader, and what is
//! expected of it, taken from outside the program. A test of a table is one call, over a function
//! that gives a plain value for an input:
//!
//! ```text
//! fn length(input: &[u8]) -> Option<usize> {
//!     Some(DevicePath::try_from(input).ok()?.as_bytes().len())
//! }
//!
//! fn a_path_has_a_length(rt: HostRuntime) -> Result<(), Fail> {
//!     let rows = [("7fff 0400", Some(4)), ("7fff 0600 aabb cc", Some(6)), ("7fff", None)];
//!     each_reads(rt.alloc(), &rows, length)
//! }
//! ```
//!
//! A check, such as [`same`], returns an error that names its row and shows both values, and a test
//! returns it by `?`.
//!
//! For tests alone. The loops and the checks are here and not in the tests, since they are proved
//! once so: a table costs its test one step.

use crate::support::fallible::*;

pub use self::allocator::{Refusing, in_turn, takes_memory, without_request};
pub use self::checks::{holds, same, same_bytes, same_text};
pub use self::tables::{each_makes, each_reads, each_shows};
use crate::hex::FromHexError;
use crate::support::alloc::AllocError;
use crate::support::test::Fail;

mod allocator;
mod checks;
pub mod samples;
mod tables;

/// Returns the bytes that hex digits stand for, two digits a byte. Spaces stand for nothing.
///
/// # Errors
///
/// `InvalidHexCharacter` at a character that is neither a hex digit nor a space, `OddLength` if the
/// digits are odd in number, and `OutOfMemory` if an allocation fails.
pub fn bytes(text: &str) -> Result<Vec<u8>, FromHexError> {
    let Ok(digits) = text
        .bytes()
        .filter(|c| *c != b' ')
        .fallible_collect::<Vec<u8>>()
    else {
        return Err(FromHexError::OutOfMemory);
    };
    crate::hex::decode(digits.as_slice())
}

/// Returns the texts, one after another.
///
/// # Errors
///
/// [`AllocError`] if an allocation fails.
pub fn joined(texts: &[&str]) -> Result<String, AllocError> {
    let mut whole = String::new();
    for text in texts {
        whole.fallible_push_str(text)?;
    }
    Ok(whole)
}

/// Returns the bytes that texts of hex digits stand for, one after another.
///
/// # Errors
///
/// A failure where [`joined`] or [`bytes`] fails.
pub fn joined_bytes(texts: &[&str]) -> Result<Vec<u8>, Fail> {
    let whole = joined(texts)?;
    Ok(bytes(whole.as_str())?)
}
