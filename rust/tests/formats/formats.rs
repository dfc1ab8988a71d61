// @generated from proved source. It is not edited.

//! The libraries, from the files of the package: what is private there is tested too.

// The tests call a part of the libraries.
#![allow(dead_code, unused_imports)]
// A loop has the form that its proof is about.
#![allow(clippy::explicit_counter_loop, clippy::needless_range_loop, clippy::while_let_on_iterator)]
// So has a test of what is returned.
#![allow(clippy::question_mark, clippy::redundant_pattern_matching)]
// Rattle has neither this call of numbers nor `let` in a condition of several parts.
#![allow(clippy::collapsible_if, clippy::manual_div_ceil)]
// A part and what follows it are a pair, also of pairs.
#![allow(clippy::type_complexity)]
// The parameters are those of `uefi`, or a record's fields.
#![allow(clippy::too_many_arguments)]
// The names are those of `uefi`.
#![allow(clippy::enum_variant_names, clippy::wrong_self_convention)]

#[path = "../../src/formats/pcr_replay/mod.rs"]
pub(crate) mod pcr_replay;
#[path = "../../src/formats/sha1/mod.rs"]
pub(crate) mod sha1;
#[path = "../../src/formats/sha2/mod.rs"]
pub(crate) mod sha2;
#[path = "../../src/formats/sm3/mod.rs"]
pub(crate) mod sm3;
#[path = "../../src/formats/tcg_event/mod.rs"]
pub(crate) mod tcg_event;
#[path = "../../src/formats/tpm_quote/mod.rs"]
pub(crate) mod tpm_quote;
#[path = "../../src/formats/uefi_base/mod.rs"]
pub(crate) mod uefi_base;
#[path = "../../src/formats/uefi_hii/mod.rs"]
pub(crate) mod uefi_hii;
#[path = "../../src/formats/uefi_map/mod.rs"]
pub(crate) mod uefi_map;
#[path = "../../src/formats/uefi_node/mod.rs"]
pub(crate) mod uefi_node;
#[path = "../../src/formats/uefi_path/mod.rs"]
pub(crate) mod uefi_path;
#[path = "../../src/formats/uefi_path_text/mod.rs"]
pub(crate) mod uefi_path_text;
#[path = "../../src/formats/uefi_records/mod.rs"]
pub(crate) mod uefi_records;
#[path = "../../src/formats/uefi_tcg/mod.rs"]
pub(crate) mod uefi_tcg;
