//! What the libraries call besides, whose files are those of the package `uefi-formats`.

#[path = "../../src/support/alloc.rs"]
pub(crate) mod alloc;
#[path = "../../src/support/bitflags.rs"]
pub(crate) mod bitflags;
#[path = "../../src/support/debug.rs"]
pub(crate) mod debug;
// Some calls are those of the tests and of the examples alone.
#[allow(dead_code)]
#[path = "../../src/support/fallible.rs"]
pub(crate) mod fallible;
#[path = "../../src/support/sealed.rs"]
pub(crate) mod sealed;
#[path = "../../src/support/shown.rs"]
pub(crate) mod shown;
#[path = "../../src/support/signed.rs"]
pub(crate) mod signed;
#[path = "../../src/support/simd.rs"]
pub(crate) mod simd;
