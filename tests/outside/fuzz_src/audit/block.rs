//! Bytes in the lines of an event's block, without their indent.

use super::events::{characters, units};
use super::json::{escaped, hex};

/// How many bytes a line of hex has.
const LINE: usize = 32;

/// What bytes are, and the text that they are, if all of it prints, or the bytes; nothing if there are
/// none.
pub fn bytes_lines(what: &str, bytes: &[u8]) -> String {
    if bytes.is_empty() {
        return String::new();
    }
    if let Some(text) = printed_text(bytes) {
        return format!("{what}: {}\n", escaped(&text));
    }
    let lines: String = bytes.chunks(LINE).map(|line| hex(line) + "\n").collect();
    format!("{what}\n{lines}")
}

/// The text of characters of a byte each, or else of two, without the NUL that may end it, if all of
/// it prints. One character alone is as likely a number.
pub fn printed_text(bytes: &[u8]) -> Option<String> {
    let narrow: Vec<u16> = bytes.iter().copied().map(u16::from).collect();
    printed(&narrow).or_else(|| printed(&units(bytes)?))
}

fn printed(units: &[u16]) -> Option<String> {
    let text = units.strip_suffix(&[0]).unwrap_or(units);
    let prints = |unit: &u16| matches!(unit, 0x20..=0x7e | 0x09 | 0x0a | 0x0d);
    (text.len() > 1 && text.iter().all(prints)).then(|| characters(text))
}
