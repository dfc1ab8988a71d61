// @generated from proved source. It is not edited.

use crate::support::fallible::*;

use crate::tcg_rows::log_inputs::{log_input, number};
use crate::rows::hex_digits;
use crate::test_support::bytes;
use crate::uefi_tcg::AlgorithmId;
use crate::uefi_tcg::v2::{AlgorithmDigestSizes, EventLog};

/// Returns the algorithm that has a name or a number.
pub(crate) fn algorithm_of(text: &str) -> Option<AlgorithmId> {
    Some(match text {
        "SHA1" => AlgorithmId::SHA1,
        "SHA256" => AlgorithmId::SHA256,
        "SHA384" => AlgorithmId::SHA384,
        "SHA512" => AlgorithmId::SHA512,
        "SM3_256" => AlgorithmId::SM3_256,
        _ => AlgorithmId(u16::try_from(number(text)?).ok()?),
    })
}

/// Returns the rows of a table, by their indices: there are none after them.
fn rows_of(sizes: &AlgorithmDigestSizes<'_>) -> Option<String> {
    let mut rows = Vec::new();
    for index in 0..sizes.len() {
        let (algorithm, size) = sizes.get(index)?;
        rows.fallible_push((algorithm.0, size)).ok()?;
    }
    if sizes.get(sizes.len()).is_some() || sizes.get(usize::MAX).is_some() {
        return fallible_format!("a row after the last one").ok();
    }
    fallible_format!("{:?}", rows.as_slice()).ok()
}

/// Returns the sizes of algorithms in a table. They have spaces between them.
fn sizes_of(sizes: &AlgorithmDigestSizes<'_>, algorithms: &str) -> Option<String> {
    let mut found = Vec::new();
    for algorithm in algorithms.split(" ") {
        found.fallible_push(sizes.get_size(algorithm_of(algorithm)?)).ok()?;
    }
    fallible_format!("{:?}", found.as_slice()).ok()
}

/// Returns the header of a log: the platform class, the version, the size of a `UINTN`, the rows,
/// the vendor's bytes, and where the header and its event end.
pub(crate) fn header(input: &str) -> Option<String> {
    let input = log_input(input)?;
    let log = EventLog::new(input.bytes(), input.last_entry, false);
    let Some(header) = log.header() else {
        return fallible_format!("None").ok();
    };
    let (class, version) = (header.platform_class(), header.spec_version());
    let rows = rows_of(&header.algorithm_digest_sizes())?;
    let vendor = hex_digits(header.vendor_info()).ok()?;
    let ends = (header.size_in_bytes(), header.event_size());
    let uintn_size = header.uintn_size();
    fallible_format!("({class}, {version:?}, {uintn_size}, {rows}, {vendor}, {ends:?})").ok()
}

/// Returns the sizes of algorithms, which come first, under the header of a log.
pub(crate) fn header_sizes(input: &str) -> Option<String> {
    let (algorithms, input) = input.split_once(" ; ")?;
    let input = log_input(input)?;
    let header = EventLog::new(input.bytes(), input.last_entry, false).header()?;
    sizes_of(&header.algorithm_digest_sizes(), algorithms)
}

/// Returns the rows that bytes have, and whether the table is empty.
pub(crate) fn table(input: &str) -> Option<String> {
    let input = bytes(input).ok()?;
    let sizes = AlgorithmDigestSizes::from_rows(input.as_slice())?;
    let again = AlgorithmDigestSizes::from_rows(sizes.rows())?;
    let rows = rows_of(&sizes)?;
    if rows != rows_of(&again)? {
        return fallible_format!("other bytes of the rows").ok();
    }
    let is_empty = sizes.is_empty();
    fallible_format!("({rows}, {is_empty})").ok()
}

/// Returns the count of the rows that bytes have, and the sizes of algorithms, which come first, in
/// that table.
pub(crate) fn table_sizes(input: &str) -> Option<String> {
    let (algorithms, rows) = input.split_once(" ; ")?;
    let rows = bytes(rows).ok()?;
    let sizes = AlgorithmDigestSizes::from_rows(rows.as_slice())?;
    let found = sizes_of(&sizes, algorithms)?;
    fallible_format!("({}, {found})", sizes.len()).ok()
}

/// Returns the digest that bytes begin with under a table of rows, which come first: its algorithm,
/// its bytes, and the bytes after it.
pub(crate) fn first_digest(input: &str) -> Option<String> {
    let (rows, digits) = input.split_once(" ; ")?;
    let (rows, input) = (bytes(rows).ok()?, bytes(digits).ok()?);
    let sizes = AlgorithmDigestSizes::from_rows(rows.as_slice())?;
    let Some(((algorithm, digest), rest)) = sizes.first_digest(input.as_slice()) else {
        return fallible_format!("None").ok();
    };
    let digest = hex_digits(digest).ok()?;
    let rest = hex_digits(rest).ok()?;
    fallible_format!("({}, {digest}, {rest})", algorithm.0).ok()
}
