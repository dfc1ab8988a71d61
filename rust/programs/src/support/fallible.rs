//! The calls of vectors and texts that end a program whose memory runs out, with an error instead: those of the package
//! `uefi-formats`, in a copy, and those that the programs call besides.

#[allow(dead_code)]
mod library;

pub(crate) use self::library::*;

use super::alloc::{self, AllocError};
use std::fmt;

/// `vec!` of items, which are made once there is room for them. They may fail to be made.
macro_rules! fallible_vec {
    ($($item:expr),* $(,)?) => {{
        let items = [$($item),*];
        $crate::support::fallible::vec_of(items)
    }};
}

/// Returns a vector of these items.
pub(crate) fn vec_of<T, const N: usize>(items: [T; N]) -> Result<Vec<T>, AllocError> {
    let mut all = <Vec<T> as FallibleVec<T>>::fallible_with_capacity(N)?;
    all.extend(items);
    Ok(all)
}

/// Sorts items.
pub(crate) trait FallibleSort {
    /// Sorts the items. None are told apart that are equal, so their order needs no memory.
    fn fallible_sort(&mut self) -> Result<(), AllocError>;
}

impl<T: Ord + Copy> FallibleSort for Vec<T> {
    fn fallible_sort(&mut self) -> Result<(), AllocError> {
        self.sort_unstable();
        Ok(())
    }
}

/// Joins texts.
pub(crate) trait FallibleJoin {
    /// Returns the texts one after another, with this one between each two.
    fn fallible_join(&self, between: &str) -> Result<String, AllocError>;
}

impl<T: AsRef<str>> FallibleJoin for [T] {
    fn fallible_join(&self, between: &str) -> Result<String, AllocError> {
        let mut all = String::new();
        for (index, text) in self.iter().enumerate() {
            all.fallible_push_str(if index > 0 { between } else { "" })?;
            all.fallible_push_str(text.as_ref())?;
        }
        Ok(all)
    }
}

/// Displays to a text.
pub(crate) trait FallibleToString {
    /// Returns what is displayed.
    fn fallible_to_string(&self) -> Result<String, AllocError>;
}

impl<T: fmt::Display> FallibleToString for T {
    fn fallible_to_string(&self) -> Result<String, AllocError> {
        fallible_format!("{self}")
    }
}
