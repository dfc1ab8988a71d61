// @generated from proved source. It is not edited.

use crate::support::fallible::*;

use crate::shown::ShownBytes;
use crate::support::alloc::AllocError;

/// What the word of an argument that isn't UTF-8 ends with: no argument of a process has this byte.
const NOT_UTF8: &str = "\0";

/// The name of a file, as an argument states it.
#[derive(Clone, Copy, Debug)]
pub(crate) enum FileName<'a> {
    /// Its text.
    Text(&'a str),
    /// How one is shown that isn't UTF-8. No file is opened by it.
    NotUtf8(&'a str),
}

impl<'a> FileName<'a> {
    /// Returns the word by which `clap` is given an argument, since it takes texts alone: the argument; of
    /// one that isn't UTF-8, how it is shown, and a mark.
    ///
    /// # Errors
    ///
    /// [`AllocError`] if an allocation fails.
    pub(crate) fn word_of(argument: &[u8]) -> Result<String, AllocError> {
        match core::str::from_utf8(argument) {
            Ok(text) => String::fallible_from_str(text),
            Err(_) => {
                let name = ShownBytes(argument);
                fallible_format!("{name}{NOT_UTF8}")
            }
        }
    }

    /// Returns the name that a word is.
    pub(crate) fn of(word: &'a str) -> FileName<'a> {
        match word.strip_suffix(NOT_UTF8) {
            Some(shown) => FileName::NotUtf8(shown),
            None => FileName::Text(word),
        }
    }

    /// Returns the name's text, or how it is shown if it has none.
    pub(crate) fn as_str(self) -> &'a str {
        match self {
            FileName::Text(text) | FileName::NotUtf8(text) => text,
        }
    }
}
