// @generated from proved source. It is not edited.

use crate::support::fallible::*;

use crate::audit_text::words::names::algorithm_name;
use crate::support::alloc::AllocError;
use uefi_formats::proto::tcg::AlgorithmId;

/// Appends the name of an algorithm, or its number.
pub(crate) fn push_algorithm(text: &mut String, algorithm: AlgorithmId) -> Result<(), AllocError> {
    match algorithm_name(algorithm) {
        Some(name) => text.fallible_push_str(name),
        None => {
            let number = algorithm.0;
            fallible_write!(text, "0x{number:x}")
        }
    }
}
