// @generated from proved source. It is not edited.

use crate::map_rows::maps::{descriptor_at, is_sorted, map, steps};
use crate::map_rows::names::{error_text, named};
use crate::map_rows::resources::{
    changes, range_type, record, resource_steps, resources, resources_with_byte,
};
use crate::map_rows::values::{
    attribute, default_descriptor, equal_descriptors, is_default_key, memory_type, sizes,
};
use crate::map_rows::writing::{set, set_at, write_byte};
use crate::rows::{hex_pair_row, hex_row};
use crate::test_support::Refusing;

/// Answers a row: its call, and its input.
pub(crate) fn answer(
    call: &str,
    input: &str,
) -> Option<String> {
    match call {
        "map" => map(input),
        "descriptor_at" => descriptor_at(input),
        "steps" => steps(input),
        "is_sorted" => is_sorted(input),
        "set" => set(input),
        "set_at" => set_at(input),
        "write_byte" => write_byte(input),
        "resources" => resources(input),
        "resources_with_byte" => resources_with_byte(input),
        "changes" => changes(input),
        _ => of_values(call, input),
    }
}

/// Answers a row of a value, or of a part of a list.
fn of_values(call: &str, input: &str) -> Option<String> {
    match call {
        "name" => named(input),
        "error_text" => error_text(input),
        "attribute" => hex_pair_row(input, attribute),
        "memory_type" => memory_type(input),
        "sizes" => sizes(input),
        "default_descriptor" => default_descriptor(),
        "equal_descriptors" => hex_pair_row(input, equal_descriptors),
        "is_default_key" => is_default_key(input),
        "range_type" => hex_row(input, range_type),
        "record" => record(input),
        "resource_steps" => resource_steps(input),
        _ => fallible_format!("there is no such call").ok(),
    }
}
