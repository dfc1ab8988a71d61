//! What the generated modules stand on: calls that abort if an allocation fails, with an error instead.

pub(crate) mod collections;
#[macro_use]
pub(crate) mod fallible;

pub(crate) mod alloc {
    //! The error of an allocation.

    pub(crate) use uefi_formats::AllocError;
}
