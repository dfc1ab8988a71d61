// @generated from proved source. It is not edited.

use crate::support::fallible::*;

use crate::map_rows::maps::number;
use crate::test_support::samples::ROOT_BRIDGE;
use crate::test_support::{Refusing, bytes};
use crate::uefi_map::{
    QwordAddressSpaceDescriptor, ResourceError, ResourceList, ResourceRangeType, parse,
};

/// A resource: its type, both flags, and its five numbers.
type Range = (ResourceRangeType, [u8; 2], [u64; 5]);

/// Returns the fields of a resource.
fn range_of(resource: &QwordAddressSpaceDescriptor) -> Range {
    (
        resource.resource_range_type,
        [resource.general_flags, resource.type_specific_flags],
        [
            resource.granularity,
            resource.address_min,
            resource.address_max,
            resource.translation_offset,
            resource.address_length,
        ],
    )
}

/// Returns the bytes of an input, which is the name of a sample or their digits.
fn list_of(input: &str) -> Option<Vec<u8>> {
    let digits = if input == "ROOT_BRIDGE" {
        ROOT_BRIDGE
    } else {
        input
    };
    bytes(digits).ok()
}

/// Returns the resources of the list that the bytes begin with, read without memory.
fn viewed(input: &[u8]) -> Option<Result<Vec<Range>, ResourceError>> {
    let list = match ResourceList::try_from(input) {
        Ok(list) => list,
        Err(error) => return Some(Err(error)),
    };
    let ranges = list.iter().map(|resource| range_of(&resource));
    Some(Ok(ranges.fallible_collect::<Vec<Range>>().ok()?))
}

/// Returns whether a vector of resources has these.
fn has(resources: &Vec<QwordAddressSpaceDescriptor>, ranges: &[Range]) -> bool {
    resources
        .as_slice()
        .iter()
        .map(range_of)
        .eq(ranges.iter().copied())
}

/// Returns the resources of the list that the bytes begin with, or the error: the same with memory
/// and without it.
fn read(input: &[u8]) -> Option<String> {
    let viewed = viewed(input)?;
    let is_same = match (parse(input), &viewed) {
        (Err(ResourceError::Memory), _) => return None,
        (Err(error), Err(other)) => error == *other,
        (Ok(list), Ok(ranges)) => has(&list, ranges.as_slice()),
        _ => false,
    };
    if !is_same {
        return fallible_format!("others without memory").ok();
    }
    match viewed {
        Ok(ranges) => fallible_format!("Ok({:?})", ranges.as_slice()).ok(),
        Err(error) => fallible_format!("Err({error:?})").ok(),
    }
}

/// Returns the resources of a list, or the error.
pub(crate) fn resources(input: &str) -> Option<String> {
    read(list_of(input)?.as_slice())
}

/// Returns the same of [`ROOT_BRIDGE`] with another byte: an offset, and the byte.
pub(crate) fn resources_with_byte(
    input: &str,
) -> Option<String> {
    let (offset, byte) = input.split_once(" ; ")?;
    let byte = bytes(byte).ok()?.first().copied()?;
    let mut list = bytes(ROOT_BRIDGE).ok()?;
    *list.get_mut(number(offset)?)? = byte;
    read(list.as_slice())
}

/// Returns the lengths of prefixes of a list at which the error is another than one byte before,
/// each with the error.
pub(crate) fn changes(input: &str) -> Option<String> {
    let list = list_of(input)?;
    let mut changes = Vec::new();
    for length in 0..=list.len() {
        let (prefix, _) = list.as_slice().split_at(length);
        let change = (length, ResourceList::try_from(prefix).err());
        let last = changes.as_slice().last();
        if last.map(|(_, error): &(usize, Option<ResourceError>)| *error) != Some(change.1) {
            changes.fallible_push(change).ok()?;
        }
    }
    fallible_format!("{:?}", changes.as_slice()).ok()
}

/// Returns the type that a byte is, and its number.
pub(crate) fn range_type(input: &[u8]) -> Option<(ResourceRangeType, u8)> {
    let range_type = ResourceRangeType::from(*input.first()?);
    Some((range_type, range_type.number()))
}

/// Returns the resource of the record that the bytes begin with, and how many bytes follow it.
pub(crate) fn record(input: &str) -> Option<String> {
    let input = list_of(input)?;
    match QwordAddressSpaceDescriptor::read(input.as_slice()) {
        Ok(Some((resource, rest))) => {
            fallible_format!("Ok({:?}, {})", range_of(&resource), rest.len()).ok()
        }
        Ok(None) => fallible_format!("Ok(None)").ok(),
        Err(error) => fallible_format!("Err({error:?})").ok(),
    }
}

/// Returns the count of resources, what is left at first and at last, and whether the iterator
/// stays ended.
pub(crate) fn resource_steps(input: &str) -> Option<String> {
    let input = list_of(input)?;
    let list = ResourceList::try_from(input.as_slice()).ok()?;
    let mut left = list.iter();
    let at_first = (list.iter().count(), left.size_hint());
    for _ in list.iter() {
        left.next();
    }
    let at_last = left.len();
    let ended = [left.next().is_none(), left.next().is_none()];
    fallible_format!("({at_first:?}, {at_last}, {ended:?})").ok()
}
