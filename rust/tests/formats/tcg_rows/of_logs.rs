// @generated from proved source. It is not edited.

use crate::tcg_rows::capabilities::{
    algorithm_sets, format_sets, is_truncated, v1_capability, v1_capability_order,
    v1_version_order, v2_capability, v2_capability_order, v2_version_order,
};
use crate::tcg_rows::log_inputs::{bytes_of, number};
use crate::tcg_rows::{logs, sweeps, v1_logs, v2_headers, v2_logs, writers};
use crate::rows::{hex_pair_row, hex_row};
use crate::test_support::Refusing;
use crate::uefi_tcg::{LastEntry, Log};

/// Answers a row of a log of either version, or of a capability or of what is written.
pub(crate) fn of_logs(
    call: &str,
    input: &str,
) -> Option<String> {
    match call {
        "log" => logs::log(input),
        "is_padded" => logs::is_padded(input),
        "read" => logs::read(input),
        "read_rows" => logs::read_rows(input),
        "read_cuts" => logs::read_cuts(input),
        "entries" => logs::entries(input),
        "entries_before" => logs::entries_before(input),
        "equal_events" => logs::equal_events(input),
        "write_v1" => writers::write_v1(input),
        "box_v1" => writers::box_v1(input),
        "equal_written" => writers::equal_written(input),
        "write_v2" => writers::write_v2(input),
        "box_v2" => writers::box_v2(input),
        "equal_inputs" => writers::equal_inputs(input),
        _ => of_versions(call, input),
    }
}

/// Answers a row of a log of one version.
fn of_versions(call: &str, input: &str) -> Option<String> {
    match call {
        "v1_log" => v1_logs::log(input),
        "v1_rest" => v1_logs::rest(input),
        "v1_step" => v1_logs::step(input),
        "v1_cuts" => sweeps::cuts_v1(input),
        "v1_steps" => sweeps::steps_v1(input),
        "v1_growth" => sweeps::growth_v1(input),
        "v2_log" => v2_logs::log(input),
        "v2_rests" => v2_logs::rests(input),
        "v2_step" => v2_logs::step(input),
        "v2_cuts" => sweeps::cuts_v2(input),
        "v2_last_entries" => sweeps::last_entries_v2(input),
        "v2_steps" => sweeps::steps_v2(input),
        "v2_growth" => sweeps::growth_v2(input),
        "digest" => v2_logs::digest(input),
        "digest_steps" => v2_logs::digest_steps(input),
        "pcr_counts" => v2_logs::pcr_counts(input),
        "log_header" => v2_headers::header(input),
        "header_sizes" => v2_headers::header_sizes(input),
        "table" => v2_headers::table(input),
        "table_sizes" => v2_headers::table_sizes(input),
        "first_digest" => v2_headers::first_digest(input),
        _ => of_capabilities(call, input),
    }
}

/// Answers a row of a capability, or of the flags in it.
fn of_capabilities(call: &str, input: &str) -> Option<String> {
    match call {
        "v1_capability" => hex_row(input, v1_capability),
        "v1_capability_order" => hex_pair_row(input, v1_capability_order),
        "v1_version_order" => hex_pair_row(input, v1_version_order),
        "v2_capability" => hex_row(input, v2_capability),
        "v2_capability_order" => hex_pair_row(input, v2_capability_order),
        "v2_version_order" => hex_pair_row(input, v2_version_order),
        "algorithm_sets" => hex_row(input, algorithm_sets),
        "format_sets" => hex_row(input, format_sets),
        "is_truncated" => hex_row(input, is_truncated),
        _ => fallible_format!("there is no such call").ok(),
    }
}

/// Returns the event that has a name: of the log that the name begins with, the one with the index
/// that it ends with.
pub(crate) fn named_event(name: &str) -> Option<String> {
    let Some((log, index)) = name.split_once("::") else {
        return fallible_format!("there is no such name").ok();
    };
    let bytes = bytes_of(log)?;
    let index = number(index)?;
    match Log::new(bytes.as_slice(), LastEntry::Unknown).header() {
        Some(_) => v2_logs::event_at(bytes.as_slice(), index),
        None => v1_logs::event_at(bytes.as_slice(), index),
    }
}
