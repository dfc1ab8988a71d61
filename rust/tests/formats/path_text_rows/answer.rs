// @generated from proved source. It is not edited.

use crate::path_text_rows::texts::{
    into_nine_bytes, parsed, text, text_and_back, text_in_each_style, texts_of_parts,
};
use crate::test_support::Refusing;

/// Answers a row: its call, and its input.
pub(crate) fn answer(
    call: &str,
    input: &str,
) -> Option<String> {
    match call {
        "text" => text_and_back(input),
        "text_in_each_style" => text_in_each_style(input),
        "display" => text(input, true, false),
        "shortcuts" => text(input, false, true),
        "parts" => texts_of_parts(input),
        "parse" => parsed(input),
        "into_nine_bytes" => into_nine_bytes(input),
        _ => fallible_format!("there is no such call").ok(),
    }
}
