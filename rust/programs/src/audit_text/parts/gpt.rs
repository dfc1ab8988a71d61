// @generated from proved source. It is not edited.

use crate::support::fallible::*;

use crate::audit_text::parts::part::{Part, PartValue, PartsResult};
use crate::audit_text::words::texts::text_before_nul;
use uefi_formats::proto::tcg::content::{GptData, GptEntry};

/// Returns the parts of a partition table: the disk, and the partitions.
pub(crate) fn gpt_parts<'a>(gpt: &GptData<'_>) -> PartsResult<'a> {
    let header = gpt.header();
    let mut partitions = Vec::new();
    for entry in gpt.iter() {
        partitions.fallible_push(PartValue::Object(partition_parts(&entry)?))?;
    }
    Ok(fallible_vec![Part::new("disk_guid", "  disk ", PartValue::Guid(header.disk_guid)),
        Part::new(
            "first_usable_lba",
            ", blocks ",
            PartValue::Decimal(header.first_usable_lba)
        ),
        Part::new(
            "last_usable_lba",
            " to ",
            PartValue::Decimal(header.last_usable_lba)
        ),
        Part::words("\n"),
        Part::new("partitions", "", PartValue::List(partitions)),]?)
}

/// Returns the parts of a partition, with its name up to the first NUL.
fn partition_parts<'a>(entry: &GptEntry<'_>) -> PartsResult<'a> {
    let name = text_before_nul(&entry.name)?;
    Ok(fallible_vec![Part::new(
            "unique_guid",
            "  partition ",
            PartValue::Guid(entry.unique_guid)
        ),
        Part::new(
            "first_lba",
            ", blocks ",
            PartValue::Decimal(entry.first_lba)
        ),
        Part::new("last_lba", " to ", PartValue::Decimal(entry.last_lba)),
        Part::new("type_guid", ", type ", PartValue::Guid(entry.type_guid)),
        Part::new(
            "attributes",
            ", attributes ",
            PartValue::Hexadecimal(entry.attributes)
        ),
        Part::new("name", ", name ", PartValue::Text(name)),
        Part::words("\n"),]?)
}
