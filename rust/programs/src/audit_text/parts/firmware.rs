// @generated from proved source. It is not edited.

use crate::support::fallible::*;

use crate::audit_text::parts::part::{Part, PartValue, PartsResult, joined};
use crate::audit_text::parts::texts::{algorithm_value, event_value};
use crate::audit_text::words::tags::tag_name;
use crate::audit_text::words::texts::byte_text;
use crate::support::alloc::AllocError;
use uefi_formats::proto::tcg::content::{
    EventText, PlatformFirmwareBlob, PlatformFirmwareBlob2, TaggedEvent,
};
use crate::uefi_audits::content::TaggedData;
use uefi_formats::proto::tcg::AlgorithmId;
use uefi_formats::proto::tcg::v2::{AlgorithmDigestSizes, EventLogHeader};

/// Returns the parts of a header.
pub(crate) fn header_parts<'a>(header: &EventLogHeader<'a>) -> PartsResult<'a> {
    let (major, minor, errata) = header.spec_version();
    let class = u64::from(header.platform_class());
    let uintn_size = u64::from(header.uintn_size());
    let sizes = PartValue::List(size_values(&header.algorithm_digest_sizes())?);
    Ok(fallible_vec![Part::new("major", "  version ", PartValue::Decimal(u64::from(major))),
        Part::new("minor", ".", PartValue::Decimal(u64::from(minor))),
        Part::new("errata", ", errata ", PartValue::Decimal(u64::from(errata))),
        Part::new(
            "platform_class",
            ", platform class ",
            PartValue::Decimal(class)
        ),
        Part::words("\n"),
        Part::in_json("uintn_size", PartValue::Decimal(uintn_size)),
        Part::new("algorithms", "", sizes),
        Part::bytes("vendor_info", "  vendor's bytes", header.vendor_info()),]?)
}

/// Returns the algorithms of a header, in order, each with the size of its digests.
fn size_values<'a>(
    sizes: &AlgorithmDigestSizes<'_>,
) -> Result<Vec<PartValue<'a>>, AllocError> {
    let mut values = Vec::new();
    for index in 0..sizes.len() {
        let Some((algorithm, size)) = sizes.get(index) else {
            return Ok(values);
        };
        let value = size_value(algorithm, size)?;
        values.fallible_push(value)?;
    }
    Ok(values)
}

/// Returns an algorithm with the size of its digests.
fn size_value<'a>(
    algorithm: AlgorithmId,
    size: u16,
) -> Result<PartValue<'a>, AllocError> {
    Ok(PartValue::Object(size_parts(algorithm, size)?))
}

/// Returns the parts of an algorithm with the size of its digests.
fn size_parts<'a>(algorithm: AlgorithmId, size: u16) -> PartsResult<'a> {
    let algorithm = algorithm_value(algorithm)?;
    Ok(fallible_vec![Part::new("algorithm", "  algorithm ", algorithm),
        Part::new("size", ", ", PartValue::Decimal(u64::from(size))),
        Part::words(" bytes\n"),]?)
}

/// Returns the parts of a blob.
pub(crate) fn blob_parts<'a>(blob: &PlatformFirmwareBlob) -> PartsResult<'a> {
    Ok(fallible_vec![Part::new("address", "  blob at ", PartValue::Hexadecimal(blob.base)),
        Part::new("length", ", ", PartValue::Decimal(blob.length)),
        Part::words(" bytes\n"),]?)
}

/// Returns the parts of a blob with a description.
pub(crate) fn described_parts<'a>(
    described: &PlatformFirmwareBlob2<'_>,
) -> PartsResult<'a> {
    let blob = &described.blob;
    let description = byte_text(described.description)?;
    Ok(fallible_vec![Part::new("address", "  blob at ", PartValue::Hexadecimal(blob.base)),
        Part::new("length", ", ", PartValue::Decimal(blob.length)),
        Part::new("description", " bytes: ", PartValue::Text(description)),
        Part::words("\n"),]?)
}

/// Returns the parts of tagged events, and the bytes after them.
pub(crate) fn tagged_events_parts<'a>(tagged: &TaggedData<'a>) -> PartsResult<'a> {
    let mut events = Vec::new();
    for event in tagged.iter() {
        events.fallible_push(PartValue::Object(tagged_parts(&event)?))?;
    }
    let events = PartValue::List(events);
    Ok(fallible_vec![Part::new("events", "", events), Part::rest(tagged.rest())]?)
}

/// Returns the parts of a tagged event.
fn tagged_parts<'a>(event: &TaggedEvent<'a>) -> PartsResult<'a> {
    let number = PartValue::Hexadecimal(u64::from(event.id));
    let tag = match tag_name(event.id) {
        Some(name) => {
            let name = PartValue::Plain(String::fallible_from_str(name)?);
            fallible_vec![Part::new("name", "  tagged event ", name),
                Part::new("id", " ", number),]?
        }
        None => fallible_vec![Part::new("id", "  tagged event ", number)]?,
    };
    let text = event_value(&EventText::read(event.data))?;
    let others = fallible_vec![Part::in_json("data", PartValue::Bytes(event.data)),
        Part::new("text", ": ", text),
        Part::words("\n"),]?;
    joined(tag, others)
}
