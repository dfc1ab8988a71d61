// @generated from proved source. It is not edited.

//! The hash algorithms in the table of a log's header, by their numbers.

use crate::support::fallible::*;

use uefi_formats::pcr::ReadLog;
use crate::support::alloc::AllocError;
use uefi_formats::proto::tcg::v2::AlgorithmDigestSizes;

/// Returns the algorithms in the table of a log's header, each once, in ascending order. A log of
/// version 1 has no header, and no algorithms.
///
/// # Errors
///
/// [`AllocError`] if an allocation fails.
pub fn algorithms_in(read: &ReadLog<'_>) -> Result<Vec<u16>, AllocError> {
    let Some(header) = read.header() else {
        return Ok(Vec::new());
    };
    let mut algorithms = each_algorithm(&header.algorithm_digest_sizes())?;
    algorithms.fallible_sort()?;
    algorithms.dedup();
    Ok(algorithms)
}

/// Returns the algorithm in each row of a table.
pub(crate) fn each_algorithm(
    table: &AlgorithmDigestSizes<'_>,
) -> Result<Vec<u16>, AllocError> {
    let mut algorithms = Vec::new();
    for index in 0..table.len() {
        let Some((algorithm, _)) = table.get(index) else {
            return Ok(algorithms);
        };
        algorithms.fallible_push(algorithm.0)?;
    }
    Ok(algorithms)
}
