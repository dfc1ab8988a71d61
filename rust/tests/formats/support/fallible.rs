//! Calls of vectors and texts, with an error if an allocation fails.

pub(crate) use super::own_fallible::*;
use super::alloc::AllocError;

/// What `to_string` gives: a text, or an error where it may run out of memory.
pub trait Text {
    fn text(self) -> Result<String, AllocError>;
}

impl Text for String {
    fn text(self) -> Result<String, AllocError> {
        Ok(self)
    }
}

impl Text for Result<String, AllocError> {
    fn text(self) -> Result<String, AllocError> {
        self
    }
}

/// A call of texts which may run out of memory.
pub trait FallibleReplace {
    fn fallible_replace(&self, from: char, to: &str) -> Result<String, AllocError>;
}

impl FallibleReplace for str {
    fn fallible_replace(&self, from: char, to: &str) -> Result<String, AllocError> {
        let mut text = String::new();
        text.try_reserve_exact(self.len() + self.matches(from).count() * to.len())?;
        for character in self.chars() {
            if character == from { text.push_str(to) } else { text.push(character) }
        }
        Ok(text)
    }
}

/// `clone`, which may run out of memory.
pub trait FallibleClone: Clone {
    fn fallible_clone(&self) -> Result<Self, AllocError> {
        Ok(self.clone())
    }
}

impl<T: Clone> FallibleClone for T {}
