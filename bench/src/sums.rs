//! Sums over what the plain readers and those of the package return. `crates/uefi_bench` has the
//! same over what the proved ones return.

use crate::inputs::STRIDE;
use crate::readers::log2::{Events, Header};
use crate::readers::node::Value;
use crate::readers::path::{Nodes, Stop, split};
use crate::readers::pci::{RECORD_LENGTH, Range, records};
use std::hint::black_box;
use uefi_formats::mem::memory_map::{MemoryMapMeta, MemoryMapRef};
use uefi_formats::proto::device_path::{DevicePathNode, DevicePathNodeEnum, DevicePathNodeIterator};
use uefi_formats::proto::tcg::v2::EventLog;

pub fn sum(numbers: impl IntoIterator<Item = u64>) -> u64 {
    numbers.into_iter().fold(0, u64::wrapping_add)
}

pub fn first_of(bytes: &[u8]) -> u64 {
    bytes.first().map_or(0, |byte| u64::from(*byte))
}

pub fn text_of(bytes: &[u8]) -> &str {
    str::from_utf8(bytes).unwrap_or("")
}

pub fn pair_sum((key, value): (&str, Option<&str>)) -> u64 {
    sum([key.len() as u64, value.map_or(0, str::len) as u64])
}

/// The sum over these numbers of each element of configurations.
macro_rules! element_sum {
    ($configurations:expr, $numbers:expr) => {
        sum($configurations.flatten().map(|it| sum(it.elements.iter().map($numbers).map(sum))))
    };
}
pub(crate) use element_sum;

/// The bytes of the path that the bytes begin with.
pub fn whole(bytes: &[u8]) -> Option<&[u8]> {
    split(bytes, Stop::EndEntire).map(|(path, _)| path)
}

pub fn node_sum(rest: &[u8], stop: Stop) -> u64 {
    sum(Nodes { rest, stop }.map(|it| sum([it.device_type().into(), it.data().len() as u64])))
}

pub fn package_node_sum(nodes: DevicePathNodeIterator<'_>) -> u64 {
    sum(nodes.map(|it| sum([it.device_type().0.into(), it.data().len() as u64])))
}

/// The sum over numbers of the path's nodes, as values of their types.
pub fn value_sum(rest: &[u8]) -> u64 {
    sum(Nodes { rest, stop: Stop::EndEntire }.map(|node| match Value::read(&node) {
        Some(Value::Acpi { hid, uid }) => sum([hid.into(), uid.into()]),
        Some(Value::Pci { function, device }) => sum([device.into(), function.into()]),
        Some(Value::Nvme { namespace }) => namespace.into(),
        Some(Value::HardDrive { start, size }) => sum([start, size]),
        Some(Value::FilePath { name }) => (name.len() / 2) as u64,
        None => 0,
    }))
}

pub fn package_value_sum(node: DevicePathNode<'_>) -> u64 {
    match node.as_enum() {
        Ok(DevicePathNodeEnum::AcpiAcpi(it)) => sum([it.hid.into(), it.uid.into()]),
        Ok(DevicePathNodeEnum::HardwarePci(it)) => sum([it.device.into(), it.function.into()]),
        Ok(DevicePathNodeEnum::MessagingNvmeNamespace(it)) => it.namespace_identifier.into(),
        Ok(DevicePathNodeEnum::MediaHardDrive(it)) => sum([it.partition_start, it.partition_size]),
        Ok(DevicePathNodeEnum::MediaFilePath(it)) => it.path_name.len() as u64,
        _ => 0,
    }
}

/// The list, once no fault was found, as the Rust crate makes it: range by range.
pub fn ranges(bytes: &[u8]) -> Option<Vec<Range>> {
    let (records, _) = records(bytes).ok()?.as_chunks::<RECORD_LENGTH>();
    let mut list = Vec::new();
    for record in records {
        list.push(Range::read(record));
    }
    Some(list)
}

pub fn package_map(bytes: &[u8]) -> Option<MemoryMapRef<'_>> {
    MemoryMapRef::new(bytes, MemoryMapMeta::of(bytes.len(), black_box(STRIDE))).ok()
}

pub fn log2_sum(bytes: &[u8], with_digests: bool) -> u64 {
    let last_entry = black_box(bytes.len());
    let Some(Header { rows, end: offset, .. }) = Header::read(bytes, last_entry) else {
        return 0;
    };
    sum(Events { bytes, rows, last_entry, offset }.map(|it| {
        let digest_sum = |(algorithm, digest)| sum([u64::from(algorithm), first_of(digest)]);
        let digests = if with_digests { sum(it.digests.map(digest_sum)) } else { 0 };
        sum([it.pcr_index.into(), it.event_type.into(), it.data.len() as u64, digests])
    }))
}

pub fn package_log2_sum(bytes: &[u8], with_digests: bool) -> u64 {
    let log = EventLog::new(Some(bytes), Some(black_box(bytes.len())), false);
    sum(log.iter().map(|it| {
        let digests = it.digests().into_iter().map(|it| sum([it.0.0.into(), first_of(it.1)]));
        let digests = if with_digests { sum(digests) } else { 0 };
        let (pcr_index, event_type) = (it.pcr_index().0.into(), it.event_type().0.into());
        sum([pcr_index, event_type, it.event_data().len() as u64, digests])
    }))
}
