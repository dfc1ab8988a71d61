// @generated from proved source. It is not edited.

//! The libraries, a module each.

// A loop has the form that its proof is about.
#![allow(clippy::explicit_counter_loop, clippy::needless_range_loop, clippy::while_let_on_iterator)]
// So has a test of what is returned.
#![allow(clippy::question_mark, clippy::redundant_pattern_matching)]
// Rattle has neither this call of numbers nor `let` in a condition of several parts.
#![allow(clippy::collapsible_if, clippy::manual_div_ceil)]
// A part and what follows it are a pair, also of pairs.
#![allow(clippy::type_complexity)]
// The parameters are those of `uefi`, or a record's fields.
#![allow(clippy::too_many_arguments)]

pub(crate) mod pcr_replay;
pub(crate) mod sha1;
pub(crate) mod sha2;
pub(crate) mod sm3;
pub(crate) mod tcg_event;
pub(crate) mod tpm_quote;
pub(crate) mod uefi_base;
pub(crate) mod uefi_hii;
pub(crate) mod uefi_map;
pub(crate) mod uefi_node;
pub(crate) mod uefi_path;
pub(crate) mod uefi_path_text;
pub(crate) mod uefi_records;
pub(crate) mod uefi_tcg;
