// @generated from proved source. It is not edited.

use crate::hii_rows::filling::{filled, unlike};
use crate::hii_rows::items::{first, items};
use crate::hii_rows::values::{ends, guid, key, next_pair_of, number, pairs, text};
use crate::test_support::{Refusing, bytes};

/// Answers a row: its call, and its input.
pub(crate) fn answer(
    call: &str,
    input: &str,
) -> Option<String> {
    match call {
        "items" => items(input),
        "first" => first(input),
        "number" => number(input),
        "text" => text(input),
        "guid" => guid(input),
        "ends" => ends(input),
        "filled" => filled(input),
        "unlike" => unlike(input),
        "pairs" => pairs(input),
        "next_pair" => next_pair_of(input.as_bytes()),
        "next_pair_of_bytes" => next_pair_of(bytes(input).ok()?.as_slice()),
        "key" => key(input),
        _ => fallible_format!("there is no such call").ok(),
    }
}
