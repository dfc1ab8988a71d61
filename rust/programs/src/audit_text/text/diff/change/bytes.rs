// @generated from proved source. It is not edited.

use crate::audit_text::text::diff::change::prefix::common_prefix_length;
use crate::audit_text::text::diff::change::sides::change_between;
use crate::audit_text::words::push_more;
use crate::support::alloc::AllocError;

/// How many bytes of a side are shown.
const SHOWN_LENGTH: usize = 32;

/// Returns the bytes of both sides in hex from the first that differs; nothing if none does.
pub(crate) fn byte_change(old: &[u8], new: &[u8]) -> Result<String, AllocError> {
    if old == new {
        return Ok(String::new());
    }
    bytes_from(common_prefix_length(old, new), old, new)
}

/// Returns the bytes of both sides in hex from an index.
fn bytes_from(index: usize, old: &[u8], new: &[u8]) -> Result<String, AllocError> {
    let (_, old) = old.split_at(index);
    let (_, new) = new.split_at(index);
    let old = first_bytes(old)?;
    let new = first_bytes(new)?;
    let change = change_between(old.as_str(), new.as_str())?;
    fallible_format!("from byte {index}: {change}")
}

/// Returns the first bytes in hex, and how many there are more.
fn first_bytes(bytes: &[u8]) -> Result<String, AllocError> {
    let (first, rest) = bytes.split_at(SHOWN_LENGTH.min(bytes.len()));
    let mut words = crate::hex::encode(first)?;
    push_more(&mut words, rest.len())?;
    Ok(words)
}
