//! What the tests stand on besides.

#[path = "../../src/support/alloc.rs"]
pub mod alloc;
#[path = "../../src/support/bitflags.rs"]
pub(crate) mod bitflags;
#[path = "../../src/support/debug.rs"]
pub(crate) mod debug;
#[path = "../../src/support/display.rs"]
mod display;
#[path = "../../src/support/sealed.rs"]
pub(crate) mod sealed;
#[path = "../../src/support/signed.rs"]
pub(crate) mod signed;
#[path = "../../src/support/simd.rs"]
pub(crate) mod simd;

#[path = "../../src/support/fallible.rs"]
mod own_fallible;

pub mod fallible;
pub(crate) mod shown;
pub mod test;
