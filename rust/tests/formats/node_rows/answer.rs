// @generated from proved source. It is not edited.

use crate::node_rows::flags::{infiniband_flags, iscsi_flags};
use crate::node_rows::names::{guid_text, named};
use crate::node_rows::nodes::node;
use crate::node_rows::parts::{
    adr_list, dns_addresses, hard_drive, lengths, pci, signature, unknown_signature,
};
use crate::rows::hex_row;

/// Answers a row: its call, and its input.
pub(crate) fn answer(call: &str, input: &str) -> Option<String> {
    match call {
        "name" => named(input),
        "guid_text" => guid_text(input),
        "node" => node(input),
        "pci" => hex_row(input, pci),
        "hard_drive" => hex_row(input, hard_drive),
        "lengths" => hex_row(input, lengths),
        "adr_list" => hex_row(input, adr_list),
        "dns_addresses" => hex_row(input, dns_addresses),
        "signature" => hex_row(input, signature),
        "unknown_signature" => hex_row(input, unknown_signature),
        "infiniband_flags" => hex_row(input, infiniband_flags),
        "iscsi_flags" => hex_row(input, iscsi_flags),
        _ => fallible_format!("there is no such call").ok(),
    }
}
