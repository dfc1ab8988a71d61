// @generated from proved source. It is not edited.

use crate::base_rows::errors::{equal_errors, error, error_text, status};
use crate::base_rows::guids::{guid, guid_order, guid_text};
use crate::base_rows::texts::{equal_texts, equal_until_nul, made, text};
use crate::base_rows::units::{characters, numbers, units};
use crate::rows::hex_row;
use crate::test_support::Refusing;

/// Answers a row: its call, and its input.
pub(crate) fn answer(
    call: &str,
    input: &str,
) -> Option<String> {
    match call {
        "units" => hex_row(input, units),
        "characters" => characters(input),
        "text" => text(input),
        "made" => made(input),
        "equal_until_nul" => equal_until_nul(input),
        "equal_texts" => equal_texts(input),
        _ => of_values(call, input),
    }
}

/// Answers a row of a value that is no text.
fn of_values(call: &str, input: &str) -> Option<String> {
    match call {
        "numbers" => hex_row(input, numbers),
        "guid" => guid(input),
        "guid_text" => guid_text(input),
        "guid_order" => guid_order(input),
        "status" => status(input),
        "error" => error(input),
        "equal_errors" => equal_errors(input),
        "error_text" => error_text(input),
        _ => fallible_format!("there is no such call").ok(),
    }
}
