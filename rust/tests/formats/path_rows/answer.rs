// @generated from proved source. It is not edited.

use crate::path_rows::appending::{
    append_instance, append_node, append_path, boxed, instance_to_boxed, path_to_boxed, pushed,
    rebuilt,
};
use crate::path_rows::attributes::{attributes, named};
use crate::path_rows::nodes::{
    equal_headers, equal_views, header, is_less, loaded_image, node, node_text, type_debug,
    type_name,
};
use crate::path_rows::options::{option, option_description, option_error, option_parts};
use crate::path_rows::paths::{first_path, path, path_error, path_nodes, path_parts, path_text};
use crate::path_rows::samples::sample;
use crate::path_rows::writing::{long_list, write_option, written_again};
use crate::rows::{hex_pair_row, hex_row};
use crate::test_support::Refusing;

/// Answers a row: its call, and its input.
pub(crate) fn answer(
    call: &str,
    input: &str,
) -> Option<String> {
    match call {
        "path" => hex_row(sample(input), path),
        "path_parts" => path_parts(sample(input)),
        "path_nodes" => path_nodes(sample(input)),
        "path_text" => path_text(sample(input)),
        "path_error" => path_error(input),
        "first_path" => hex_row(sample(input), first_path),
        "append_path" => append_path(input),
        "append_node" => append_node(input),
        "append_instance" => append_instance(input),
        "boxed" => boxed(sample(input)),
        "path_to_boxed" => path_to_boxed(sample(input)),
        "instance_to_boxed" => instance_to_boxed(sample(input)),
        "rebuilt" => rebuilt(sample(input)),
        "pushed" => pushed(input),
        _ => of_nodes(call, input),
    }
}

/// Answers a row of a node.
fn of_nodes(call: &str, input: &str) -> Option<String> {
    match call {
        "node" => node(input),
        "node_text" => node_text(input),
        "header" => hex_row(input, header),
        "equal_headers" => hex_pair_row(input, equal_headers),
        "equal_views" => hex_pair_row(input, equal_views),
        "loaded_image" => hex_row(input, loaded_image),
        "type_name" => hex_row(input, type_name),
        "type_debug" => type_debug(input),
        "is_less" => hex_pair_row(input, is_less),
        _ => of_options(call, input),
    }
}

/// Answers a row of a load option.
fn of_options(call: &str, input: &str) -> Option<String> {
    match call {
        "option" => hex_row(sample(input), option),
        "option_parts" => option_parts(sample(input)),
        "option_description" => option_description(sample(input)),
        "option_error" => option_error(input),
        "name" => named(input),
        "attributes" => hex_row(input, attributes),
        "written_again" => written_again(sample(input)),
        "write_option" => write_option(input),
        "long_list" => long_list(input),
        _ => fallible_format!("there is no such call").ok(),
    }
}
