//! What the tests stand on besides: as the tests of the package `uefi-formats` have it, over this package's library.

#[path = "../../../tests/formats/support/fallible.rs"]
pub mod fallible;
#[path = "../../../src/support/fallible.rs"]
mod own_fallible;
#[path = "../../../tests/formats/support/test.rs"]
pub mod test;

pub mod alloc {
    //! The error of an allocation.

    pub use uefi_formats::AllocError;
}
