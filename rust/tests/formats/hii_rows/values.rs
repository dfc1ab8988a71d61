// @generated from proved source. It is not edited.

use crate::support::fallible::*;

use crate::rows::hex_digits;
use crate::test_support::Refusing;
use crate::uefi_hii::{ConfigurationString, ConfigurationStringIter, keys, next_pair};

/// Returns the number that a text spells.
pub(crate) fn number(input: &str) -> Option<String> {
    let number = ConfigurationString::parse_number_from_hex(input);
    fallible_format!("{number:?}").ok()
}

/// Returns the text that another one spells.
pub(crate) fn text(input: &str) -> Option<String> {
    let found = ConfigurationString::parse_string_from_hex(input).ok()?;
    let found = found.as_ref().map(|text| text.as_str());
    fallible_format!("{found:?}").ok()
}

/// Returns the bytes of the GUID that a text spells.
pub(crate) fn guid(input: &str) -> Option<String> {
    match ConfigurationString::parse_guid_from_hex(input) {
        Some(guid) => hex_digits(&guid.to_bytes()).ok(),
        None => fallible_format!("None").ok(),
    }
}

/// Returns how many bytes a text spells, the last two of them, the first one, what is left by the
/// hint, and the rest from its end.
pub(crate) fn ends(input: &str) -> Option<String> {
    let mut bytes = ConfigurationString::parse_bytes_from_hex(input);
    let ends = (
        bytes.len(),
        bytes.next_back(),
        bytes.next_back(),
        bytes.next(),
    );
    let left = bytes.size_hint();
    let rest = bytes.rev().fallible_collect::<Vec<u8>>().ok()?;
    let rest = hex_digits(rest.as_slice()).ok()?;
    fallible_format!("({ends:?}, {left:?}, {rest})").ok()
}

/// Returns the pairs of a text. The iterator stays ended after them.
pub(crate) fn pairs(input: &str) -> Option<String> {
    let mut text = String::new();
    let mut pairs = ConfigurationStringIter::new(input);
    while let Some(pair) = pairs.next() {
        fallible_write!(text, "{pair:?}").ok()?;
    }
    if pairs.next().is_some() {
        text.fallible_push_str(" and the iterator goes on").ok()?;
    }
    Some(text)
}

/// Returns the first pair of bytes, its key and its value, and the bytes after it.
pub(crate) fn next_pair_of(input: &[u8]) -> Option<String> {
    let pair = next_pair(input);
    fallible_format!("{pair:?}").ok()
}

/// Returns the key that has a name.
pub(crate) fn key(name: &str) -> Option<String> {
    let key = match name {
        "keys::ALTCFG" => keys::ALTCFG,
        "keys::GUID" => keys::GUID,
        "keys::NAME" => keys::NAME,
        "keys::OFFSET" => keys::OFFSET,
        "keys::VALUE" => keys::VALUE,
        "keys::WIDTH" => keys::WIDTH,
        _ => return None,
    };
    fallible_format!("{key:?}").ok()
}
