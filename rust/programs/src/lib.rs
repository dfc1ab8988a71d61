//! The parts of the programs `uefi_list`, `uefi_boot` and `uefi_audit`, whose `main` functions call [`uefi_list::main`],
//! [`uefi_boot::main`] and [`uefi_audit::main`]. No interface is promised.
//!
//! The modules `audit_text`, `boot_listing`, `file_input`, `hex`, `sha2`, `shown`, `uefi_audit`,
//! `uefi_audits`, `uefi_base`, `uefi_boot`, `uefi_list`, `uefi_listing` are written from source that is proved; they aren't themselves
//! proved. The others are by hand: the README says why.

// A loop has the form that its proof is about.
#![allow(clippy::needless_range_loop, clippy::while_let_on_iterator)]
// So has a test of what is returned.
#![allow(clippy::manual_contains, clippy::manual_find, clippy::manual_map, clippy::manual_ok_err)]
#![allow(clippy::manual_unwrap_or, clippy::question_mark, clippy::redundant_pattern_matching)]
// Rattle has no `let` in a condition of several parts.
#![allow(clippy::collapsible_if)]
// What is borrowed, and for how long, is written out there.
#![allow(clippy::explicit_auto_deref, clippy::needless_borrows_for_generic_args)]
#![allow(clippy::needless_lifetimes)]

// A failed allocation is an error: see `support`.
extern crate alloc;

#[macro_use]
pub(crate) mod text;
#[macro_use]
pub(crate) mod support;
#[macro_use]
pub mod host;
pub(crate) mod clap;
pub(crate) mod serde_json;
pub(crate) mod strsim;

// Generated from here on.
pub mod audit_text;
pub mod boot_listing;
pub mod file_input;
pub mod shown;
pub mod uefi_audit;
// A field is read by contracts alone.
#[allow(dead_code)]
pub mod uefi_audits;
pub mod uefi_boot;
pub mod uefi_list;
pub mod uefi_listing;

// Generated too. The programs call a part of them.
#[allow(dead_code)]
pub(crate) mod hex;
#[allow(dead_code)]
pub(crate) mod sha2;
pub(crate) mod uefi_base {
    //! What isn't public in the package `uefi-formats`.

    #[allow(dead_code)]
    pub(crate) mod little_endian;
}
