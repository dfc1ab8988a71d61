//! The listings of the program `uefi_list` by plain Rust, over the plain [`readers`](crate::readers):
//! std alone. A command has a line in [`COMMANDS`].

use crate::readers::config::{Configuration, Configurations};
use crate::readers::info::FileInfo;
use crate::readers::log1;
use crate::readers::log2::{self, Header};
use crate::readers::map::{Descriptor, Map};
use crate::readers::path::{Nodes, Stop, instances, split};
use crate::readers::pci::{RECORD_LENGTH, Range, records};
use crate::readers::time::Time;
use std::fmt::{self, Display, Formatter};

/// What a command takes after FILE.
#[derive(Clone, Copy, PartialEq, Eq)]
pub enum ThirdWord {
    None,
    Number,
    /// A number, or `-` for none.
    LastEntry,
}

/// The lines of a listing, or the name that is printed after `refused` if the bytes aren't what the
/// command lists.
pub type Listing = Result<String, String>;

/// Lists bytes. The number is that of the third word.
pub type List = fn(&[u8], Option<usize>) -> Listing;

/// The commands, each with what it takes after FILE.
pub const COMMANDS: [(&str, ThirdWord, List); 9] = [
    ("path", ThirdWord::None, path),
    ("log1", ThirdWord::LastEntry, log1),
    ("log2", ThirdWord::LastEntry, |bytes, last| log2(bytes, last, |header| header.end)),
    ("log2after", ThirdWord::LastEntry, |bytes, last| log2(bytes, last, |header| header.event_end)),
    ("config", ThirdWord::None, config),
    ("map", ThirdWord::Number, map),
    ("pci", ThirdWord::None, pci),
    ("time", ThirdWord::None, time),
    ("info", ThirdWord::Number, info),
];

/// Bytes, displayed as two hex digits each.
pub struct Hex<'a>(pub &'a [u8]);

impl Display for Hex<'_> {
    fn fmt(&self, f: &mut Formatter<'_>) -> fmt::Result {
        let digit = |digit: u8| char::from(b"0123456789abcdef"[usize::from(digit)]);
        let digits = self.0.iter().flat_map(|byte| [digit(byte >> 4), digit(byte & 15)]);
        f.write_str(&digits.collect::<String>())
    }
}

/// Bytes in hex with a space before them, or nothing if there are none.
fn spaced(bytes: &[u8]) -> String {
    if bytes.is_empty() { String::new() } else { format!(" {}", Hex(bytes)) }
}

fn path(bytes: &[u8], _: Option<usize>) -> Listing {
    let (path, _) = split(bytes, Stop::EndEntire).ok_or("InvalidLength")?;
    let mut lines = String::new();
    for instance in instances(path) {
        lines += &format!("instance {}\n", instance.len());
        for node in (Nodes { rest: instance, stop: Stop::AnyEnd }) {
            let (device_type, sub_type) = (node.device_type(), node.sub_type());
            lines += &format!("  {device_type:02x} {sub_type:02x}{}\n", spaced(node.data()));
        }
    }
    Ok(format!("{lines}path {}\n", path.len()))
}

/// A log without a last entry has no event.
fn log1(bytes: &[u8], last_entry: Option<usize>) -> Listing {
    let events = last_entry.map(|last_entry| log1::Events { bytes, last_entry, offset: 0 });
    let (mut lines, mut count) = (String::new(), 0);
    for log1::Event { pcr_index, event_type, digest, data } in events.into_iter().flatten() {
        let (digest, data) = (Hex(digest), spaced(data));
        lines += &format!("event {pcr_index} 0x{event_type:08x} {digest}{data}\n");
        count += 1;
    }
    Ok(format!("{lines}events {count}\n"))
}

/// A log without a last entry has neither header nor event.
fn log2(bytes: &[u8], last: Option<usize>, start: fn(&Header<'_>) -> usize) -> Listing {
    let header = last.and_then(|last| Some((Header::read(bytes, last)?, last)));
    let Some((header, last_entry)) = header else {
        return Ok("header none\nevents 0\n".to_owned());
    };
    let Header { rows, version: [major, minor, errata], platform_class, uintn_size, .. } = header;
    let mut lines = format!("header {platform_class} {major}.{minor}.{errata} {uintn_size}\n");
    for (algorithm, size) in rows.iter() {
        lines += &format!("  algorithm 0x{algorithm:04x} {size}\n");
    }
    lines += &format!("vendor{}\n", spaced(header.vendor));
    let mut count = 0;
    for event in (log2::Events { bytes, rows, last_entry, offset: start(&header) }) {
        let log2::Event { pcr_index, event_type, digests, data } = event;
        lines += &format!("event {pcr_index} 0x{event_type:08x}{}\n", spaced(data));
        for (algorithm, digest) in digests {
            lines += &format!("  digest 0x{algorithm:04x}{}\n", spaced(digest));
        }
        count += 1;
    }
    Ok(format!("{lines}events {count}\n"))
}

fn config(bytes: &[u8], _: Option<usize>) -> Listing {
    let text = str::from_utf8(bytes).map_err(|_| "NotUtf8")?;
    let (mut lines, mut count) = (String::new(), 0);
    for item in Configurations::new(text) {
        lines += &item.map_or_else(|fault| format!("fault {fault}\n"), |it| configuration(&it));
        count += 1;
    }
    Ok(format!("{lines}items {count}\n"))
}

fn configuration(configuration: &Configuration) -> String {
    let Configuration { name, path, alt_cfg_id, elements, .. } = configuration;
    let guid = guid(&configuration.guid);
    let mut lines = format!("config {guid}\n  name {name}\n  path {}\n", path.len());
    if let Some(id) = alt_cfg_id {
        lines += &format!("  alt {id}\n");
    }
    for element in elements {
        let (offset, width, value) = (element.offset, element.width, spaced(&element.value));
        lines += &format!("  element {offset} {width}{value}\n");
        for (key, value) in &element.nvconfig {
            let value = value.as_ref().map_or(String::new(), |value| format!("={value}"));
            lines += &format!("  nv {key}{value}\n");
        }
    }
    lines
}

/// The text of a GUID, whose first three numbers are little-endian.
fn guid(bytes: &[u8; 16]) -> String {
    let [a, b, c, d, e, f, g, h, i, j, rest @ ..] = *bytes;
    let (first, rest) = (u32::from_le_bytes([a, b, c, d]), Hex(&rest));
    let [second, third] = [[e, f], [g, h]].map(u16::from_le_bytes);
    format!("{first:08x}-{second:04x}-{third:04x}-{i:02x}{j:02x}-{rest}")
}

fn map(bytes: &[u8], stride: Option<usize>) -> Listing {
    let map = stride.and_then(|stride| Map::new(bytes, stride)).ok_or("InvalidSize")?;
    let (mut lines, mut sorted, mut count, mut last) = (String::new(), "yes", 0, 0);
    for Descriptor { ty, phys_start, virt_start, page_count, attributes } in map.entries() {
        let addresses = format!("{phys_start:#x} {virt_start:#x}");
        lines += &format!("entry {ty} {addresses} {page_count} {attributes:#x}\n");
        if phys_start < last {
            sorted = "no";
        }
        last = phys_start;
        count += 1;
    }
    Ok(format!("{lines}sorted {sorted}\nentries {count}\n"))
}

fn pci(bytes: &[u8], _: Option<usize>) -> Listing {
    let (records, _) = records(bytes)?.as_chunks::<RECORD_LENGTH>();
    let line = |record| {
        let range = Range::read(record);
        let (kind, general) = (range.range_type, range.general_flags);
        let (specific, granularity) = (range.type_specific_flags, range.granularity);
        let (min, max) = (range.address_min, range.address_max);
        let (offset, length) = (range.translation_offset, range.address_length);
        let addresses = format!("{granularity:#x} {min:#x} {max:#x} {offset:#x} {length:#x}");
        format!("resource {kind:?} {general} {specific} {addresses}\n")
    };
    let lines: String = records.iter().map(line).collect();
    Ok(format!("{lines}resources {}\n", records.len()))
}

fn time(bytes: &[u8], _: Option<usize>) -> Listing {
    let time = Time::read(bytes)?;
    let zone = time.zone().map_or("local".to_owned(), |minutes| minutes.to_string());
    let Time { year, month, day, hour, minute, second, nanosecond, daylight, .. } = time;
    let date = format!("{year:04}-{month:02}-{day:02}");
    let clock = format!("{hour:02}:{minute:02}:{second:02}.{nanosecond:09}");
    Ok(format!("time {date} {clock} {zone} {daylight}\n"))
}

fn info(bytes: &[u8], written: Option<usize>) -> Listing {
    let info = FileInfo::read(bytes, written.unwrap_or(0))?;
    let FileInfo { size, file_size, physical_size, attribute, name, .. } = info;
    let times = [info.create_time, info.last_access_time, info.modification_time];
    let [created, accessed, modified] = times.map(Hex);
    // Each unit without the NUL, its high byte first.
    let units = name[..name.len() - 2].as_chunks::<2>().0;
    let units: Vec<u8> = units.iter().flat_map(|[low, high]| [*high, *low]).collect();
    Ok(format!(
        "size {size}\nfile {file_size}\nphysical {physical_size}\ncreated {created}\n\
         accessed {accessed}\nmodified {modified}\nattribute {attribute:#x}\nname{}\n",
        spaced(&units)
    ))
}
