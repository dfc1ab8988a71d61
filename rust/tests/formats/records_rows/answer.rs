// @generated from proved source. It is not edited.

use crate::records_rows::flags::{daylight, file_attribute, named};
use crate::records_rows::reading::{
    equal_file_systems, equal_files, equal_labels, file, file_system, guid, label,
};
use crate::records_rows::searching::{nul_of_label, zero_unit, zero_units};
use crate::records_rows::times::{equal_times, invalid_time, new_time, time, time_bytes, time_error};
use crate::records_rows::writing::{
    file_end, file_size, file_system_end, file_system_size, label_end, label_error, write_file,
    write_file_system, write_label,
};
use crate::rows::{hex_pair_row, hex_row};

/// Answers a row: its call, and its input. No call asks for memory.
pub(crate) fn answer(call: &str, input: &str) -> Option<String> {
    match call {
        "name" => named(input),
        "file_attribute" => hex_row(input, file_attribute),
        "daylight" => hex_row(input, daylight),
        "time" => hex_row(input, time),
        "time_bytes" => time_bytes(input),
        "time_error" => time_error(input),
        "new_time" => new_time(input),
        "invalid_time" => invalid_time(),
        "equal_times" => hex_pair_row(input, equal_times),
        _ => of_files(call, input),
    }
}

/// Answers a row of a record that is read.
fn of_files(call: &str, input: &str) -> Option<String> {
    match call {
        "file" => file(input),
        "file_system" => file_system(input),
        "label" => label(input),
        "equal_files" => equal_files(input),
        "equal_file_systems" => equal_file_systems(input),
        "equal_labels" => hex_pair_row(input, equal_labels),
        "guid" => guid(input),
        "nul_of_label" => nul_of_label(input),
        "zero_unit" => zero_unit(input),
        "zero_units" => zero_units(input),
        _ => of_writers(call, input),
    }
}

/// Answers a row of a record that is written.
fn of_writers(call: &str, input: &str) -> Option<String> {
    match call {
        "write_file" => write_file(input),
        "write_file_system" => write_file_system(input),
        "write_label" => write_label(input),
        "file_size" => file_size(input),
        "file_system_size" => file_system_size(input),
        "file_end" => file_end(input),
        "file_system_end" => file_system_end(input),
        "label_end" => label_end(input),
        "label_error" => label_error(input),
        _ => fallible_format!("there is no such call").ok(),
    }
}
