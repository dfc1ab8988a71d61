//! Measures the proved readers beside plain Rust readers of the same formats (`readers/`), and
//! beside those of the package in `rust/`.
//!
//! All read the same inputs, which are made here from a fixed seed, and must return the same sum.
//! Each reader has a line for an input as machines have it, and one for a large input.

mod inputs;
mod measure;
mod random;
#[allow(dead_code, reason = "the listings read the other fields")]
mod readers;
mod sums;

use inputs::{
    STRIDE, boot_path, configurations, digits, info, log1, log2, map, path, resources, times, value,
};
use measure::{Read, measure};
use readers::config::{self, Configurations, Pairs};
use readers::map::Map;
use readers::path::Stop;
use std::hint::black_box;
use sums::{
    element_sum, first_of, log2_sum, node_sum, package_log2_sum, package_map, package_node_sum,
    package_value_sum, pair_sum, ranges, sum, text_of, value_sum, whole,
};
use uefi_formats::mem::memory_map::MemoryMap;
use uefi_formats::proto::device_path::DevicePath;
use uefi_formats::proto::hii::config_str::{
    ConfigurationString, ConfigurationStringIter, MultiConfigurationStringIter,
};
use uefi_formats::proto::{media::file::FileInfo, pci, tcg::v1::EventLog};
use uefi_formats::runtime::Time;

unsafe extern "C" {
    fn port_path(bytes: *const u8, length: usize) -> u64;
    fn port_nodes(bytes: *const u8, length: usize) -> u64;
    fn port_instances(bytes: *const u8, length: usize) -> u64;
    fn port_values(bytes: *const u8, length: usize) -> u64;
    fn port_log(bytes: *const u8, length: usize) -> u64;
    fn port_log1(bytes: *const u8, length: usize, last_entry: usize) -> u64;
    fn port_log2(bytes: *const u8, length: usize, last_entry: usize, digests: u32) -> u64;
    fn port_map(bytes: *const u8, length: usize, desc_size: usize) -> u64;
    fn port_sorted(bytes: *const u8, length: usize, desc_size: usize) -> u64;
    fn port_info(bytes: *const u8, length: usize) -> u64;
    fn port_times(bytes: *const u8, length: usize) -> u64;
    fn port_pci(bytes: *const u8, length: usize) -> u64;
    fn port_config_pairs(bytes: *const u8, length: usize) -> u64;
    fn port_config(bytes: *const u8, length: usize) -> u64;
    fn port_config_value(bytes: *const u8, length: usize) -> u64;
    fn port_hex(bytes: *const u8, length: usize) -> u64;
}

/// The count of an input's items as machines have it and of a large one, each in words.
type Counts = [(usize, &'static str); 2];

const VALUES: Counts = [(4096, "4,096 digits"), (64_000_000, "64,000,000 digits")];
const DIGITS: Counts = [(64, "64 digits"), (64_000_000, "64,000,000 digits")];
const TEXTS: Counts = [(1, "130 pairs, 4 KB"), (64_000_000, "2,000,000 pairs, 64 MB")];
const NAMES: Counts = [(12, "12 units"), (32_000_000, "32,000,000 units")];
const MAPS: Counts = [(100, "100 descriptors"), (1_000_000, "1,000,000 descriptors")];
const LOGS: Counts = [(200, "200 events"), (1_000_000, "1,000,000 events")];
const RESOURCES: Counts = [(4, "4 resources"), (1_000_000, "1,000,000 resources")];
const TIMES: Counts = [(1, "1 time"), (1_000_000, "1,000,000 times")];
const PATHS: Counts = [(5, "5 nodes"), (1_000_000, "1,000,000 nodes, an instance each 50")];
const BOOT_PATHS: Counts = [(1, "5 nodes of a boot option"), (200_000, "1,000,000 nodes of boot options")];

/// Name, counts, the function that makes an input with so many items, and three readers: the proved
/// one, the plain one, and that of the package.
type Reader = (&'static str, Counts, fn(usize) -> Vec<u8>, [Read; 3]);

// SAFETY: a proved reader reads the bytes of the slice, and is done with them when it returns. The
// last entry that each reader of logs is told is the log's length: every whole event is read.

const EVENTS2: [Read; 3] = [
    |it| unsafe { port_log2(it.as_ptr(), it.len(), it.len(), 0) },
    |it| log2_sum(it, black_box(false)),
    |it| package_log2_sum(it, black_box(false)),
];
const DIGESTS2: [Read; 3] = [
    |it| unsafe { port_log2(it.as_ptr(), it.len(), it.len(), 1) },
    |it| log2_sum(it, black_box(true)),
    |it| package_log2_sum(it, black_box(true)),
];

/// The readers in the order of the page.
#[rustfmt::skip]
const READERS: [Reader; 19] = [
    ("hex", DIGITS, digits, [
        |it| unsafe { port_hex(it.as_ptr(), it.len()) },
        |it| {
            let spelled: Vec<u8> = black_box(config::hex(text_of(it)).collect());
            sum([spelled.len() as u64, first_of(&spelled)])
        },
        |it| {
            let spelled: Vec<u8> = black_box(ConfigurationString::parse_bytes_from_hex(text_of(it)).collect());
            sum([spelled.len() as u64, first_of(&spelled)])
        },
    ]),
    ("long values", VALUES, value, [
        |it| unsafe { port_config_value(it.as_ptr(), it.len()) },
        |it| element_sum!(Configurations::new(text_of(it)),
            |it| [it.value.len() as u64, first_of(&it.value)]),
        |it| element_sum!(MultiConfigurationStringIter::new(text_of(it)),
            |it| [it.value.len() as u64, first_of(&it.value)]),
    ]),
    ("names", NAMES, info, [
        |it| unsafe { port_info(it.as_ptr(), it.len()) },
        |it| readers::info::FileInfo::read(it, it.len())
            .map_or(0, |info| (info.name.len() / 2 - 1) as u64),
        |it| FileInfo::from_uefi(it, it.len())
            .map_or(0, |info| info.file_name().len().saturating_sub(1) as u64),
    ]),
    ("pairs of configurations", TEXTS, configurations, [
        |it| unsafe { port_config_pairs(it.as_ptr(), it.len()) },
        |it| sum(Pairs { rest: text_of(it) }.map(pair_sum)),
        |it| sum(ConfigurationStringIter::new(text_of(it)).map(pair_sum)),
    ]),
    ("maps: entries", MAPS, map, [
        |it| unsafe { port_map(it.as_ptr(), it.len(), STRIDE) },
        |it| Map::new(it, black_box(STRIDE)).map_or(0, |map| {
            sum(map.entries().map(|it| sum([it.ty.into(), it.phys_start, it.page_count])))
        }),
        |it| package_map(it).map_or(0, |map| {
            sum(map.entries().map(|it| sum([it.ty.0.into(), it.phys_start, it.page_count])))
        }),
    ]),
    ("maps: `is_sorted`", MAPS, map, [
        |it| unsafe { port_sorted(it.as_ptr(), it.len(), STRIDE) },
        |it| Map::new(it, black_box(STRIDE))
            .map_or(0, |map| map.entries().is_sorted_by_key(|it| it.phys_start).into()),
        |it| package_map(it).map_or(0, |map| map.is_sorted().into()),
    ]),
    ("logs: version 1", LOGS, log1, [
        |it| unsafe { port_log1(it.as_ptr(), it.len(), it.len()) },
        |bytes| {
            let last_entry = black_box(bytes.len());
            sum(readers::log1::Events { bytes, last_entry, offset: 0 }.map(|it| {
                let [pcr_index, event_type] = [it.pcr_index, it.event_type].map(u64::from);
                sum([pcr_index, event_type, it.digest[0].into(), it.data.len() as u64])
            }))
        },
        |bytes| {
            let log = EventLog::new(Some(bytes), Some(black_box(bytes.len())), false);
            sum(log.iter().map(|it| {
                let [pcr_index, event_type] = [it.pcr_index().0, it.event_type().0].map(u64::from);
                sum([pcr_index, event_type, it.digest()[0].into(), it.event_data().len() as u64])
            }))
        },
    ]),
    ("logs: version 2, two digests", LOGS, log2::<2>, EVENTS2),
    ("logs: version 2, each of two digests", LOGS, log2::<2>, DIGESTS2),
    ("logs: version 2, four digests", LOGS, log2::<4>, EVENTS2),
    ("logs: version 2, each of four digests", LOGS, log2::<4>, DIGESTS2),
    ("logs: `Log::read` and entries", LOGS, log2::<2>, [
        |it| unsafe { port_log(it.as_ptr(), it.len()) },
        whole_logs::plain_sum,
        whole_logs::package_sum,
    ]),
    ("PCI resources", RESOURCES, resources, [
        |it| unsafe { port_pci(it.as_ptr(), it.len()) },
        |it| black_box(ranges(it)).map_or(0, |list| {
            sum([list.len() as u64, list.first().map_or(0, |it| it.granularity)])
        }),
        |it| black_box(pci::parse(it)).map_or(0, |list| {
            sum([list.len() as u64, list.first().map_or(0, |it| it.granularity)])
        }),
    ]),
    ("times", TIMES, times, [
        |it| unsafe { port_times(it.as_ptr(), it.len()) },
        |it| sum(it.chunks_exact(16).filter_map(|it| readers::time::Time::read(it).ok())
            .map(|it| sum([it.year.into(), it.day.into(), it.nanosecond.into()]))),
        |it| sum(it.chunks_exact(16).filter_map(|it| Time::try_from(it).ok())
            .map(|it| sum([it.year().into(), it.day().into(), it.nanosecond().into()]))),
    ]),
    ("configurations", TEXTS, configurations, [
        |it| unsafe { port_config(it.as_ptr(), it.len()) },
        |it| element_sum!(Configurations::new(text_of(it)),
            |it| [it.offset, it.width, first_of(&it.value)]),
        |it| element_sum!(MultiConfigurationStringIter::new(text_of(it)),
            |it| [it.offset, it.width, first_of(&it.value)]),
    ]),
    ("paths: `try_from`", PATHS, path, [
        |it| unsafe { port_path(it.as_ptr(), it.len()) },
        |it| whole(it).map_or(0, |path| path.len() as u64),
        |it| DevicePath::try_from(it).map_or(0, |path| path.as_bytes().len() as u64),
    ]),
    ("paths: nodes", PATHS, path, [
        |it| unsafe { port_nodes(it.as_ptr(), it.len()) },
        |it| whole(it).map_or(0, |path| node_sum(path, Stop::EndEntire)),
        |it| DevicePath::try_from(it).map_or(0, |path| package_node_sum(path.node_iter())),
    ]),
    ("paths: instances", PATHS, path, [
        |it| unsafe { port_instances(it.as_ptr(), it.len()) },
        |it| whole(it).map_or(0, |path| sum(readers::path::instances(path)
            .map(|it| sum([it.len() as u64, node_sum(it, Stop::AnyEnd)])))),
        |it| DevicePath::try_from(it).map_or(0, |path| sum(path.instance_iter()
            .map(|it| sum([it.as_bytes().len() as u64, package_node_sum(it.node_iter())])))),
    ]),
    ("paths: `as_enum`", BOOT_PATHS, boot_path, [
        |it| unsafe { port_values(it.as_ptr(), it.len()) },
        |it| whole(it).map_or(0, value_sum),
        |it| DevicePath::try_from(it).map_or(0, |path| sum(path.node_iter().map(package_value_sum))),
    ]),
];

fn main() {
    for (size, name) in ["as used", "large"].iter().enumerate() {
        for (reader, counts, input, readers) in READERS {
            let (count, words) = counts[size];
            let seconds = measure(reader, &input(count), readers);
            let seconds = seconds.map(|it| format!("{it:e}")).join("\t");
            println!("{reader}\t{name}\t{words}\t{seconds}");
        }
    }
}
