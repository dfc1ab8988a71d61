// @generated from proved source. It is not edited.

use crate::tcg_rows::content::size_and_bytes;
use crate::support::alloc::AllocError;
use crate::tcg_event::{GptData, GptEntry, GptHeader};

/// Appends the type, the blocks, the attributes and the name of an entry, without what follows a NUL,
/// and the count of the bytes after it.
fn push_entry(text: &mut String, entry: &GptEntry<'_>) -> Result<(), AllocError> {
    let (guid, name, attributes) = (entry.type_guid, entry.name, entry.attributes);
    let (blocks, rest) = ((entry.first_lba, entry.last_lba), entry.rest.len());
    fallible_write!(text, "({guid}, {blocks:?}, {attributes}, {name}, {rest})")
}

/// Returns the entries of the table that the bytes are, and what the iterator has left before the
/// first one and after it.
pub(crate) fn gpt_table(input: &str) -> Option<String> {
    let (size, input) = size_and_bytes(input)?;
    let Some(table) = GptData::read(input.as_slice(), size) else {
        return fallible_format!("None").ok();
    };
    let mut text = String::new();
    for entry in table.iter() {
        push_entry(&mut text, &entry).ok()?;
    }
    let mut left = table.iter();
    let before = (left.len(), left.size_hint());
    left.next();
    let after = (left.len(), left.size_hint());
    fallible_write!(text, "[{before:?}, {after:?}]").ok()?;
    Some(text)
}

/// Returns the fields of a table's header.
pub(crate) fn gpt_header(input: &str) -> Option<String> {
    let (size, input) = size_and_bytes(input)?;
    let header = GptData::read(input.as_slice(), size)?.header();
    let is_signed = header.signature == GptHeader::SIGNATURE;
    let words = (header.revision, header.header_size, header.header_crc32);
    let entries = (header.entry_count, header.entry_size, header.entries_crc32);
    let blocks = [
        header.my_lba,
        header.alternate_lba,
        header.first_usable_lba,
        header.last_usable_lba,
        header.partition_entry_lba,
    ];
    let (reserved, disk) = (header.reserved, header.disk_guid);
    fallible_format!("({is_signed}, {words:?}, {reserved}, {blocks:?}, {disk}, {entries:?})").ok()
}
