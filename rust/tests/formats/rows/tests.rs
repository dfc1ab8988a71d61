// @generated from proved source. It is not edited.

use crate::support::fallible::*;

use crate::rows::table::each_row;
use crate::rows::texts::{hex_digits, hex_pair_row, hex_row, quoted};
use crate::support::alloc::AllocError;
use crate::support::test::Fail;
use crate::test_support::{Refusing, bytes, holds, same, same_text};

/// Returns bytes as a list, which is in memory of the allocator of a row; or `None` if that ran out.
fn list(input: &str) -> Option<String> {
    let bytes = bytes(input).ok()?;
    let list = Vec::fallible_from_slice(bytes.as_slice()).ok()?;
    fallible_format!("{:?}", list.as_slice()).ok()
}

/// Answers a row.
fn answer(call: &str, input: &str) -> Option<String> {
    match call {
        "name" => fallible_format!("Number(7)").ok(),
        "list" => list(input),
        "length" => hex_row(input, |bytes| bytes.len()),
        "lengths" => hex_pair_row(input, |one, other| (one.len(), other.len())),
        "quoted" => quoted(input).ok(),
        "hex" => hex_digits(bytes(input).ok()?.as_slice()).ok(),
        "goes on" if Vec::fallible_from_slice(b"a").is_err() => Some(String::new()),
        "no memory" => None,
        _ => Some(String::new()),
    }
}

/// Rows that are as wanted.
const PASSING: &str = "# A comment, and an empty line.

list | 01 ff | [1, 255] | by hand
list | 01 ff | [0x1, 0xff] | by hand
list | 61 62 00 0a 22 5c ff | b\"ab\\0\\n\\\"\\\\\\xff\" | by hand
list |  | b\"\" | by hand
list |  | [] | by hand
length | 0102 | 0x2 | by hand
length | 0 | the input is no hex | by hand
lengths | 01 ; 02 03 | (1, 2) | by hand
lengths |  ; | the input is no pair | by hand
lengths | 01 ; 0 | the input is no hex | by hand
quoted | a \"0x1f\" b | \"a \\\"0x1f\\\" b\" | by hand
hex | 7fff0400 | x\"7fff 0400\" | by hand
name | Number::SEVEN | Number(0x7) | by hand
name | Number::SEVEN | Number::SEVEN | by hand
";

/// Rows that aren't, and the lines that say why.
const FAILING: [[&str; 2]; 6] = [
    ["list | 01 | [2]", "  a row has four parts\n"],
    [
        "list | 01 | [2] | by hand",
        "  wanted  [2]\n  got     [1]\n",
    ],
    [
        "name | Number::SIX | Number::SIX | by hand",
        "  wanted  Number::SIX\n  got     Number(7)\n",
    ],
    [
        "goes on |  | 1 | by hand",
        "  wanted  1\n  got     , though a request was refused after 0\n",
    ],
    [
        "no memory |  |  | by hand",
        "  wanted  \n  got     no memory, though no request was refused\n",
    ],
    ["unknown |  | 1 | by hand", "  wanted  1\n  got     \n"],
];

#[test]
fn a_row_is_as_wanted_in_each_form() -> Result<(), Fail> {
    let judged = each_row(
        "a.rows",
        PASSING,
        &|call, input| { answer(call, input) },
    )?;
    same_text("faults", judged.faults.as_str(), "")?;
    same("rows, failed", &(judged.rows, judged.failed), &(14, 0))
}

/// Returns what is printed of rows.
fn faults(rows: &str) -> Result<String, AllocError> {
    let judged = each_row(
        "a.rows",
        rows,
        &|call, input| { answer(call, input) },
    )?;
    Ok(judged.faults)
}

#[test]
fn a_row_that_is_not_as_wanted_is_printed() -> Result<(), Fail> {
    for [row, fault] in FAILING {
        let text = fallible_format!("# A comment.\n{row}\n")?;
        let expected = fallible_format!("a.rows:2: {row}\n{fault}")?;
        same_text(
            row,
            faults(text.as_str())?.as_str(),
            expected.as_str(),
        )?;
    }
    holds("no row, no fault", faults("")?.is_empty())
}
