//! What stands for the parts of Rattle's library that Rust's `core` has in another form, and what the types have in Rust
//! alone.

pub(crate) mod alloc;
pub(crate) mod bitflags;
mod bytes;
pub(crate) mod debug;
mod display;
mod equality;
// Some calls are those of the tests and of the examples alone.
#[cfg(feature = "alloc")]
#[allow(dead_code)]
pub(crate) mod fallible;
pub(crate) mod file_path;
pub(crate) mod sealed;
pub(crate) mod shown;
pub(crate) mod signed;
pub(crate) mod simd;
