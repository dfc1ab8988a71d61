//! An input: the bytes of a file, the word after FILE, and for some commands the bytes of another.

use crate::listings::Hex;
use std::fmt::{self, Display, Formatter};

#[derive(Clone, Default)]
pub struct Input {
    pub bytes: Vec<u8>,
    pub third_word: Option<Vec<u8>>,
    /// The bytes of the other file, where the command takes two.
    pub other: Vec<u8>,
}

impl Input {
    pub fn new(bytes: Vec<u8>) -> Input {
        Input { bytes, ..Input::default() }
    }
}

impl Display for Input {
    fn fmt(&self, f: &mut Formatter<'_>) -> fmt::Result {
        let word = self.third_word.as_ref().map(|word| word.escape_ascii().to_string());
        writeln!(f, "argument: {}", word.as_deref().unwrap_or("none"))?;
        for (name, bytes) in [("input", &self.bytes), ("other file", &self.other)] {
            writeln!(f, "{name} of {} bytes in hex: {}", bytes.len(), Hex(bytes))?;
        }
        Ok(())
    }
}
