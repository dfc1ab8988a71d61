//! The repository's tests of the listings, boot options and audits, written out by `tools/erase`, over the crate's public names.

// The form is the one of the repository's tests, of which some are left out.
#![allow(dead_code, unused_imports, unused_macros, clippy::all)]

extern crate alloc;

#[macro_use]
#[path = "../../src/text.rs"]
mod text;

mod audit_tests;
mod boot_tests;
#[path = "../../../tests/formats/hex.rs"]
mod hex;
mod listing_tests;
mod support;
#[path = "../../../tests/formats/test_support/mod.rs"]
mod test_support;

use uefi_formats::pcr as pcr_replay;
use uefi_formats::pcr as tpm_quote;
use uefi_formats::proto::tcg as uefi_tcg;
use uefi_tools::{audit_text, boot_listing, shown, uefi_audits, uefi_listing};
