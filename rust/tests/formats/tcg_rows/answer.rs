// @generated from proved source. It is not edited.

use crate::tcg_rows::content::{blob, boot_order, described_blob, header, image, tagged_events, variable};
use crate::tcg_rows::gpt::{gpt_header, gpt_table};
use crate::tcg_rows::names::{algorithm, event_type, named, order, uintn_size};
use crate::tcg_rows::of_logs::of_logs;
use crate::tcg_rows::signatures::{owned_signature, signature_lists, signature_steps, signature_type};
use crate::tcg_rows::texts::{crtm_version, event_text};
use crate::rows::{hex_pair_row, hex_row};
use crate::test_support::Refusing;

/// Answers a row: its call, and its input.
pub(crate) fn answer(
    call: &str,
    input: &str,
) -> Option<String> {
    match call {
        "name" => named(input),
        "event_type" => hex_row(input, event_type),
        "algorithm" => hex_row(input, algorithm),
        "order" => hex_pair_row(input, order),
        "uintn_size" => hex_row(input, uintn_size),
        "event_text" => event_text(input),
        "crtm_version" => crtm_version(input),
        "blob" => hex_row(input, blob),
        "described_blob" => described_blob(input),
        "header" => hex_row(input, header),
        "tagged_events" => tagged_events(input),
        "variable" => variable(input),
        _ => of_tables(call, input),
    }
}

/// Answers a row of an image, of numbers, of a partition table or of signatures.
fn of_tables(call: &str, input: &str) -> Option<String> {
    match call {
        "image" => image(input),
        "boot_order" => boot_order(input),
        "gpt_table" => gpt_table(input),
        "gpt_header" => gpt_header(input),
        "signature_lists" => signature_lists(input),
        "signature_steps" => signature_steps(input),
        "signature" => owned_signature(input),
        "signature_type" => signature_type(input),
        _ => of_logs(call, input),
    }
}
