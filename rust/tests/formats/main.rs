//! The repository's tests of the libraries, written out by `tools/erase`, and by
//! hand each allocation refused in turn, and every `# Panics`.

// Rows are tuples, and a step is a closure, to which the source passes an allocator.
#![allow(clippy::type_complexity, clippy::redundant_closure)]
// A step is the same whether or not its result is what it was given.
#![allow(clippy::eq_op, clippy::field_reassign_with_default, clippy::useless_conversion)]
// What these lints offer instead isn't in the source's std, or isn't proved.
#![allow(clippy::double_ended_iterator_last, clippy::explicit_auto_deref, clippy::len_zero)]
#![allow(clippy::redundant_as_str, clippy::needless_lifetimes)]
#![allow(clippy::needless_borrows_for_generic_args, clippy::option_as_ref_deref)]
#![allow(clippy::question_mark, clippy::while_let_on_iterator)]

extern crate alloc;

#[macro_use]
mod text;

// These have what is for tests that are left out, too.
#[allow(dead_code, unused_imports)]
mod audit_tests;
#[allow(dead_code, unused_imports)]
mod base_rows;
mod conversions;
mod debug;
mod display;
mod equality;
mod formats;
mod hex;
#[allow(dead_code, unused_imports)]
mod hii_rows;
mod macros;
#[allow(dead_code, unused_imports)]
mod map_rows;
mod memory;
mod mutated_quotes;
// An allocator is no argument here, and `Debug` reads the fields of what it prints.
#[allow(dead_code, unused_imports)]
mod node_rows;
mod node_tests;
mod panics;
#[allow(dead_code, unused_imports)]
mod path_rows;
mod path_tests;
#[allow(dead_code, unused_imports)]
mod path_text_rows;
mod path_text_tests;
#[allow(dead_code)]
mod quote_tests;
#[allow(dead_code, unused_imports)]
mod records_rows;
// Rows of other crates call the rest.
#[allow(dead_code, unused_imports)]
mod rows;
mod sizes;
mod sm3_tests;
mod support;
#[allow(dead_code, unused_imports)]
mod tcg_rows;
mod tcg_tests;
// A sample is for the tests of the programs, and a table for none of these.
#[allow(dead_code, unused_imports)]
mod test_support;
mod views;

use formats::{
    pcr_replay, tcg_event, tpm_quote, uefi_base, uefi_hii, uefi_map, uefi_node, uefi_path, uefi_path_text, uefi_records,
    uefi_tcg,
};

mod sm3 {
    pub(crate) use crate::formats::{sha2::Digest, sm3::*};
}
