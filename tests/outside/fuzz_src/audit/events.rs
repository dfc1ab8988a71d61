//! The events of a log in JSON and in lines, and what their data say. The texts of device paths are
//! those of the package.

use super::block::{bytes_lines, printed_text};
use super::json::{
    array, escaped, escaped_bytes, hex, hex_text, object, shown, shown_bytes, shown_hex, text,
};
use super::log::{Event, NO_ACTION, kind_name, type_name};
use super::replay::{BANKS, SHA256};
use crate::readers::log2::Header;
use crate::readers::path::{Node, Nodes, Stop, split};
use uefi_formats::proto::device_path::DevicePath;
use uefi_formats::proto::device_path::text::{AllowShortcuts, DisplayOnly, to_text};

const AUTHORITY: u32 = 0x8000_00e0;
const GLOBAL: &str = "8be4df61-93ca-11d2-aa0d-00e098032b8c";
const IMAGE_SECURITY: &str = "d719b2cb-3d3a-4596-a3bc-dad00e67656f";
const SHIM: &str = "605dab50-e046-4300-abb6-3dd810dd8b23";

/// What the signatures of a list are, by its type (UEFI 2.10, 32.4.1).
#[rustfmt::skip]
const SIGNATURES: [(&str, &str); 7] = [
    ("a5c059a1-94e4-4aa7-87b5-ab155c2bf072", "X.509 certificates"),
    ("c1c41626-504c-4092-aca9-41f936934328", "SHA-256 hashes"),
    ("826ca512-cf10-4ac9-b187-be01496631bd", "SHA-1 hashes"),
    ("ff3e5307-9fd0-48c9-85f1-8ad56c701e01", "SHA-384 hashes"),
    ("093e0fae-a6c4-4f50-9f1b-d41e2b89c19a", "SHA-512 hashes"),
    ("3c5766e8-269c-4e34-aa14-ed776e85b3b6", "RSA-2048 keys"),
    ("3bd2a492-96c0-4079-b420-fcf98ef103ed", "SHA-256 hashes of X.509 certificates, and times"),
];
/// How many bytes of a signature are shown, at most.
const LONGEST_HASH: usize = 80;
/// The names of tags of Linux and systemd.
const TAGS: [(u64, &str); 7] = [
    (0x8f3b_22ec, "INITRD"),
    (0x8f3b_22ed, "LOAD_OPTIONS"),
    (0xf5bc_582a, "LOADER_CONF"),
    (0x6c46_f751, "DEVICETREE_ADDON"),
    (0x49df_fe0f, "INITRD_ADDON"),
    (0xdac0_8e1a, "UCODE_ADDON"),
    (0x13ae_d6db, "UKI_PROFILE"),
];

/// The first line of an event's block.
pub fn head(event: &Event<'_>) -> String {
    format!("{}: {}: PCR {}, {}\n", event.log, event.place(), event.pcr, kind_name(event.kind))
}

pub fn json_line(event: &Event<'_>) -> String {
    let Event { index, offset, pcr, kind: number, .. } = event;
    let content = said(event).map_or("null".to_owned(), |it| object(&[(it.key, &it.json)]));
    let (data, log) = (hex_text(event.data), text(event.log));
    let digest = |it: &(u16, &[u8])| object!(algorithm: algorithm(it.0), digest: hex_text(it.1));
    let hashes = BANKS.iter().filter(|it| event.is_hash(it, event.data)).map(|it| text(it.name));
    let (digests, hashes_to) = (array(event.digests.iter().map(digest)), array(hashes));
    let kind = object!(name: type_name(event.kind).map_or(String::new(), |it| text(&it)), number);
    object!(content, data, digests, hashes_to, index, log, offset, pcr, type: kind) + "\n"
}

/// The name of an algorithm.
fn algorithm_name(number: u16) -> Option<&'static str> {
    let others = [("sha3_256", 0x27), ("sha3_384", 0x28), ("sha3_512", 0x29)];
    let mut named = BANKS.iter().map(|bank| (bank.name, bank.algorithm)).chain(others);
    named.find(|it| it.1 == number).map(|it| it.0)
}

/// The name of an algorithm between quotation marks, or its number.
pub fn algorithm(number: u16) -> String {
    algorithm_name(number).map_or(number.to_string(), text)
}

/// The name of an algorithm, or its number in hex.
pub fn shown_algorithm(number: u16) -> String {
    algorithm_name(number).map_or(format!("{number:#x}"), str::to_owned)
}

/// What data say.
pub struct Said<'a> {
    /// The key in JSON, and its value.
    pub key: &'static str,
    json: String,
    /// A few words on one line.
    pub words: String,
    /// The lines of an event's block, without their indent.
    pub lines: String,
    /// The text or the version that the data are, on a line.
    pub text: Option<String>,
    /// The value of a variable, and whether it says nothing that is read.
    pub value: Option<&'a [u8]>,
    is_value_unread: bool,
    /// The bytes of the name of a variable, an image or a tag, after those of its namespace.
    pub name: [&'a [u8]; 2],
}

/// A part of what data say: its JSON, and its lines.
struct Part(String, String);

/// The parts in an array, and their lines.
fn joined(parts: &[Part]) -> Part {
    Part(array(parts.iter().map(|it| &it.0)), parts.iter().map(|it| &*it.1).collect())
}

impl<'a> Said<'a> {
    fn new(key: &'static str, json: String, words: String, lines: String) -> Self {
        let (text, value, is_value_unread, name) = (None, None, false, [&[][..]; 2]);
        Said { key, json, words, lines, text, value, is_value_unread, name }
    }

    /// The value of a variable, if it isn't read.
    pub fn unread_value(&self) -> Option<&'a [u8]> {
        self.value.filter(|_| self.is_value_unread)
    }
}

pub fn said<'a>(event: &Event<'a>) -> Option<Said<'a>> {
    let mut data = event.data;
    match event.kind {
        0x01 => printed(data).or_else(|| blob(None, data)),
        NO_ACTION => event.stated().map(locality).or_else(|| header(data)),
        0x04 => data.try_into().ok().map(|it| separator(u32::from_le_bytes(it))),
        0x05 | 0x0d | 0x12 | 0x8000_0007 | 0x8000_0010 => {
            Some(text_said("text", "text", data_text(data)))
        }
        0x06 => Some(tagged_events(data)),
        0x08 => Some(text_said("crtm_version", "version", version(data))),
        0x13 | 0x8000_000a => counted(&mut data, 1).and_then(|it| blob(Some(it), data)),
        0x8000_0001 | 0x8000_0002 | 0x8000_000c | 0x8000_00e0 => variable(event),
        0x8000_0003..=0x8000_0005 => image(data, event.uintn),
        0x8000_0006 | 0x8000_000d => partition_table(data, event.uintn),
        0x8000_0008 => blob(None, data),
        _ => printed(data).filter(|_| !data.is_empty()),
    }
}

fn separator(number: u32) -> Said<'static> {
    let (words, line) = (format!("separator {number}"), format!("separator {number:#x}\n"));
    Said::new("separator", number.to_string(), words, line)
}

fn locality(number: u8) -> Said<'static> {
    let (words, line) = (format!("locality {number}"), format!("started at locality {number}\n"));
    Said::new("locality", number.to_string(), words, line)
}

/// The text that data are.
struct DataText {
    /// As JSON has it.
    json: String,
    /// On a line, and the first characters of that.
    line: String,
    words: String,
}

impl DataText {
    fn new(said: &str) -> Self {
        DataText { json: text(said), line: escaped(said), words: shown(said) }
    }
}

/// A text of a kind.
fn text_said(key: &'static str, kind: &str, said: DataText) -> Said<'static> {
    let line = format!("{kind} {}\n", said.line);
    Said { text: Some(said.line), ..Said::new(key, said.json, said.words, line) }
}

fn printed(data: &[u8]) -> Option<Said<'static>> {
    let is_printed = data.iter().all(|byte| (b' '..=b'~').contains(byte));
    let said = || DataText::new(&String::from_utf8_lossy(data));
    is_printed.then(|| text_said("text", "text", said()))
}

/// A text in UTF-8, or else in UTF-16, without the NUL that may end it, or else the bytes.
fn data_text(data: &[u8]) -> DataText {
    let utf8 = str::from_utf8(data.strip_suffix(&[0]).unwrap_or(data));
    if let Some(utf8) = utf8.ok().filter(|it| !it.contains('\0')) {
        return DataText::new(utf8);
    }
    match units(data).as_deref() {
        Some([said @ .., 0] | said) if are_latin(said) => DataText::new(&characters(said)),
        _ => {
            let line = escaped_bytes(data);
            DataText { json: text(&line), line, words: shown_bytes(data) }
        }
    }
}

/// Whether firmware writes such units: tabs, ends of lines, and what prints up to Latin Extended-A.
fn are_latin(units: &[u16]) -> bool {
    let is_latin = |it: &u16| matches!(it, 9 | 10 | 13 | 0x20..0x7f | 0xa0..0x180);
    units.iter().all(is_latin)
}

/// Units that a NUL ends, or sixteen bytes that are a GUID, or another text.
fn version(mut data: &[u8]) -> DataText {
    match units(data).as_deref() {
        Some([version @ .., 0]) if are_latin(version) => DataText::new(&characters(version)),
        _ if data.len() == 16 => DataText::new(&guid(&mut data).unwrap_or_default()),
        _ => data_text(data),
    }
}

/// A blob, whose description has a byte for each character.
fn blob(description: Option<&[u8]>, mut data: &[u8]) -> Option<Said<'static>> {
    let (address, length) = (number(&mut data, 8)?, number(&mut data, 8)?);
    let described = description.map(|it| it.iter().copied().map(char::from).collect::<String>());
    let words = description.map_or(format!("at {address:#x}"), shown_bytes);
    let after = described.as_deref().map(|it| format!(": {}", escaped(it))).unwrap_or_default();
    let line = format!("blob at {address:#x}, {length} bytes{after}\n");
    let description = described.as_deref().map(text).unwrap_or_default();
    let json = object!(address, description, length);
    data.is_empty().then(|| Said::new("blob", json, format!("blob {words}"), line))
}

fn tagged_events(data: &[u8]) -> Said<'_> {
    let (mut events, mut rest, mut after) = (Vec::new(), data, data);
    while let (Some(id), Some(data)) = (number(&mut after, 4), counted(&mut after, 4)) {
        events.push(tagged_event(id, data));
        rest = after;
    }
    let Part(events, lines) = joined(&events);
    let json = object!(events, rest: rest_text(rest));
    let lines = lines + &bytes_lines("trailing bytes", rest);
    let name = [&[], &data[..data.len().min(4)]];
    let mut after = data;
    let first = number(&mut after, 4).zip(counted(&mut after, 4));
    let words = first.map_or("no tagged event".to_owned(), |(id, _)| format!("tag {}", tag(id)));
    let text = first.filter(|_| after.is_empty()).map(|(_, data)| data_text(data).line);
    Said { name, text, ..Said::new("tagged_events", json, words, lines) }
}

fn tag(id: u64) -> String {
    let name = TAGS.iter().find(|it| it.0 == id).map(|it| format!("{} ", it.1));
    format!("{}{id:#x}", name.unwrap_or_default())
}

fn tagged_event(id: u64, data: &[u8]) -> Part {
    let DataText { json, line, .. } = data_text(data);
    let line = format!("tagged event {}: {line}\n", tag(id));
    let name = TAGS.iter().find(|it| it.0 == id).map(|it| text(it.1)).unwrap_or_default();
    Part(object!(data: hex_text(data), id, name, text: json), line)
}

/// The header that a log of one event with these data has.
fn header(data: &[u8]) -> Option<Said<'static>> {
    let length = (data.len() as u32).to_le_bytes();
    let event = [&[0; 4][..], &NO_ACTION.to_le_bytes(), &[0; 20], &length, data].concat();
    let Header { platform_class, version: [major, minor, errata], uintn_size, rows, vendor, .. } =
        Header::read(&event, 0)?;
    let row = |(number, size): (u16, u16)| {
        let line = format!("algorithm {}, {size} bytes\n", shown_algorithm(number));
        Part(object!(algorithm: algorithm(number), size), line)
    };
    let Part(algorithms, lines) = joined(&rows.iter().map(row).collect::<Vec<_>>());
    let vendor_info = hex_text(vendor);
    let json = object!(algorithms, errata, major, minor, platform_class, uintn_size, vendor_info);
    let version = format!("version {major}.{minor}, errata {errata}");
    let first = format!("{version}, platform class {platform_class}\n");
    let lines = first + &lines + &bytes_lines("vendor's bytes", vendor);
    Some(Said::new("header", json, "header".to_owned(), lines))
}

/// The header of a partition table (UEFI 2.10, 5.3.2), the number of entries, and these.
fn partition_table(data: &[u8], uintn: usize) -> Option<Said<'static>> {
    let (header, mut rest) = data.split_at_checked(92)?;
    let at = |offset: usize, width| number(&mut &header[offset..], width);
    let (first_usable_lba, last_usable_lba, size) = (at(40, 8)?, at(48, 8)?, at(84, 4)? as usize);
    let (guid, count) = (guid(&mut &header[56..])?, number(&mut rest, uintn)?);
    if size < 128 || rest.len() % size != 0 || (rest.len() / size) as u64 != count {
        return None;
    }
    let partitions: Vec<_> = rest.chunks(size).filter_map(partition).collect();
    let Part(partitions, lines) = joined(&partitions);
    let json = object!(disk_guid: text(&guid), first_usable_lba, last_usable_lba, partitions);
    let disk = format!("disk {guid}, blocks {first_usable_lba} to {last_usable_lba}\n");
    Some(Said::new("gpt", json, format!("disk {guid}"), disk + &lines))
}

/// A partition (UEFI 2.10, 5.3.3), with its name up to the first NUL.
fn partition(mut entry: &[u8]) -> Option<Part> {
    let (kind, unique) = (guid(&mut entry)?, guid(&mut entry)?);
    let (first_lba, last_lba) = (number(&mut entry, 8)?, number(&mut entry, 8)?);
    let (attributes, name) = (number(&mut entry, 8)?, units(&entry[..72])?);
    let name = characters(name.split(|unit| *unit == 0).next()?);
    let place = format!("partition {unique}, blocks {first_lba} to {last_lba}");
    let shown = escaped(&name);
    let line = format!("{place}, type {kind}, attributes {attributes:#x}, name {shown}\n");
    let [name, type_guid, unique_guid] = [name, kind, unique].map(|it| text(&it));
    Some(Part(object!(attributes, first_lba, last_lba, name, type_guid, unique_guid), line))
}

fn image(mut data: &[u8], uintn: usize) -> Option<Said<'_>> {
    let (address, length) = (number(&mut data, 8)?, number(&mut data, uintn)?);
    let (link_address, bytes) = (number(&mut data, uintn)?, counted(&mut data, uintn)?);
    let nodes = first_path(bytes).filter(|it| it.1.is_empty()).map(|it| it.0);
    let shown = nodes.as_ref().map(|_| path_text(bytes));
    let numbers = format!("image at {address:#x}, {length} bytes, linked for {link_address:#x}\n");
    let path = shown.as_deref().map_or_else(|| bytes_lines("path", bytes), path_line);
    let lines = numbers + &path + &bytes_lines("trailing bytes", data);
    let text = shown.as_deref().map_or(String::new(), text);
    let shown = shown.unwrap_or_else(|| shown_hex(bytes));
    let path = nodes.map_or_else(|| hex_text(bytes), |it| path_json(&it));
    let json = object!(address, length, link_address, path, rest: rest_text(data), text);
    let words = if bytes.is_empty() { "image".to_owned() } else { format!("image {shown}") };
    Some(Said { name: [&[], bytes], ..Said::new("image", json, words, lines) })
}

/// The nodes of the path that bytes begin with, but for its end node, and the bytes after it.
fn first_path(bytes: &[u8]) -> Option<(Vec<Node<'_>>, &[u8])> {
    let (path, rest) = split(bytes, Stop::EndEntire)?;
    Some((Nodes { rest: path, stop: Stop::EndEntire }.collect(), rest))
}

fn path_json(nodes: &[Node<'_>]) -> String {
    array(nodes.iter().map(|node| {
        object!(data: hex_text(node.data()), subtype: node.sub_type(), type: node.device_type())
    }))
}

/// The text of the path that bytes begin with.
fn path_text(bytes: &[u8]) -> String {
    let path = DevicePath::try_from(bytes).expect("bytes that begin with a path");
    to_text(path, DisplayOnly(false), AllowShortcuts(false)).to_string()
}

fn path_line(text: &str) -> String {
    format!("path {text}\n")
}

/// The GUID of a variable, its name and its value.
pub fn variable_parts(mut data: &[u8]) -> Option<(String, String, &[u8])> {
    let owner = guid(&mut data)?;
    let (count, size) = (number(&mut data, 8)?, number(&mut data, 8)?);
    let name = units(data.split_off(..(count as usize).checked_mul(2)?)?)?;
    (data.len() as u64 == size).then(|| (owner, characters(&name), data))
}

fn variable<'a>(event: &Event<'a>) -> Option<Said<'a>> {
    let (guid, name, data) = variable_parts(event.data)?;
    let read = variable_value(event.kind, &guid, &name, data);
    let is_value_unread = read.is_none();
    let unread_text = Some(data).filter(|_| is_value_unread).and_then(printed_text);
    let text_json = unread_text.as_deref().map(text).unwrap_or_default();
    let unread = || Part(String::new(), bytes_lines("value", data));
    let Part(value, lines) = read.unwrap_or_else(unread);
    let lines = format!("variable {}, {guid}\n", escaped(&name)) + &lines;
    let (words, value_data) = (format!("variable {}", shown(&name)), hex_text(data));
    let [guid, name] = [guid, name].map(|it| text(&it));
    let json = object!(data: value_data, guid, name, text: text_json, value);
    let name = [&event.data[..16], &event.data[32..event.data.len() - data.len()]];
    let value = Some(data);
    Some(Said { value, is_value_unread, name, ..Said::new("variable", json, words, lines) })
}

/// What a value says, if it is read. In an event of an authority it is one signature.
fn variable_value(kind: u32, guid: &str, name: &str, data: &[u8]) -> Option<Part> {
    let number = name.strip_prefix("Boot").and_then(|it| u16::from_str_radix(it, 16).ok());
    match (kind, guid, name) {
        (AUTHORITY, IMAGE_SECURITY, _) | (AUTHORITY, SHIM, "MokList") => {
            let Part(signature, line) = signature(data)?;
            Some(Part(object!(signature), line))
        }
        (AUTHORITY, ..) => None,
        (_, GLOBAL, "BootOrder") => Some(boot_order(&units(data)?)),
        (_, GLOBAL, "PK" | "KEK") | (_, IMAGE_SECURITY, "db" | "dbx") => {
            let Part(signature_lists, lines) = signature_lists(data)?;
            Some(Part(object!(signature_lists), lines))
        }
        (_, GLOBAL, name) if number.is_some_and(|it| name == format!("Boot{it:04X}")) => {
            let Part(boot_option, lines) = boot_option(data)?;
            Some(Part(object!(boot_option), lines))
        }
        _ => None,
    }
}

fn boot_order(numbers: &[u16]) -> Part {
    let names: String = numbers.iter().map(|number| format!(" Boot{number:04X}")).collect();
    Part(object!(boot_order: array(numbers)), format!("boot order{names}\n"))
}

/// A load option (UEFI 2.10, 3.1.3).
fn boot_option(mut data: &[u8]) -> Option<Part> {
    let (attributes, length) = (number(&mut data, 4)?, number(&mut data, 2)?);
    let count = data.chunks_exact(2).position(|unit| unit == [0, 0])?;
    let description = characters(&units(data.split_off(..2 * count)?)?);
    let (paths, rest) = data[2..].split_at_checked(length as usize)?;
    let (path, shown) = (path_json(&first_path(paths)?.0), path_text(paths));
    let first = format!("boot option with attributes {attributes:#x}: {}\n", escaped(&description));
    let lines = first + &path_line(&shown) + &bytes_lines("optional data", rest);
    let optional_text = printed_text(rest).as_deref().map(text).unwrap_or_default();
    let (optional_data, description, text) = (hex_text(rest), text(&description), text(&shown));
    let json = object!(attributes, description, optional_data, optional_text, path, text);
    Some(Part(json, lines))
}

/// The lists of a database (UEFI 2.10, 32.4.1).
fn signature_lists(mut data: &[u8]) -> Option<Part> {
    let next = || (!data.is_empty()).then(|| signature_list(&mut data));
    std::iter::from_fn(next).collect::<Option<Vec<_>>>().map(|lists| joined(&lists))
}

fn signature_list(data: &mut &[u8]) -> Option<Part> {
    let length = number(&mut data.get(16..)?, 4)?;
    let mut list = data.split_off(..length as usize)?;
    let (kind, _length) = (guid(&mut list)?, number(&mut list, 4)?);
    let (header_length, size) = (number(&mut list, 4)?, number(&mut list, 4)? as usize);
    let header = list.split_off(..header_length as usize)?;
    if size < 16 || list.len() % size != 0 {
        return None;
    }
    let signatures: Option<Vec<_>> = list.chunks_exact(size).map(signature).collect();
    let Part(signatures, lines) = joined(&signatures?);
    let name = SIGNATURES.iter().find(|it| it.0 == kind).map(|it| it.1.to_owned());
    let first = format!("list of {}\n", name.unwrap_or_else(|| format!("type {kind}")));
    let lines = first + &bytes_lines("header", header) + &lines;
    Some(Part(object!(header: hex_text(header), signatures, type: text(&kind)), lines))
}

/// The owner of a signature, and its data: whole, or their hash.
fn signature(mut data: &[u8]) -> Option<Part> {
    let owner = guid(&mut data)?;
    let (first, owner) = (format!("signature of owner {owner}"), text(&owner));
    if data.len() <= LONGEST_HASH {
        let json = object!(data: hex_text(data), owner);
        return Some(Part(json, format!("{first}: {}\n", hex(data))));
    }
    let (length, sha256) = (data.len(), SHA256.hash(data));
    let line = format!("{first}: {length} bytes with SHA-256 {}\n", hex(&sha256));
    Some(Part(object!(length, owner, sha256: hex_text(&sha256)), line))
}

/// The number that bytes begin with, which are taken away.
fn number(rest: &mut &[u8], width: usize) -> Option<u64> {
    let bytes = rest.split_off(..width)?;
    Some(bytes.iter().rev().fold(0, |number, byte| number << 8 | u64::from(*byte)))
}

/// The bytes that follow their length, which has this width.
fn counted<'a>(rest: &mut &'a [u8], width: usize) -> Option<&'a [u8]> {
    let count = number(rest, width)?;
    rest.split_off(..count as usize)
}

/// The text of the GUID that bytes begin with.
fn guid(rest: &mut &[u8]) -> Option<String> {
    let (first, second, third) = (number(rest, 4)?, number(rest, 2)?, number(rest, 2)?);
    let (fourth, fifth) = (hex(rest.split_off(..2)?), hex(rest.split_off(..6)?));
    Some(format!("{first:08x}-{second:04x}-{third:04x}-{fourth}-{fifth}"))
}

/// The units that bytes are.
pub fn units(bytes: &[u8]) -> Option<Vec<u16>> {
    let (pairs, []) = bytes.as_chunks() else { return None };
    Some(pairs.iter().map(|pair| u16::from_le_bytes(*pair)).collect())
}

/// The characters of units, with U+FFFD for a surrogate.
pub fn characters(units: &[u16]) -> String {
    units.iter().map(|unit| char::from_u32((*unit).into()).unwrap_or('\u{fffd}')).collect()
}

/// The JSON of the bytes that are left, if there are any.
fn rest_text(rest: &[u8]) -> String {
    if rest.is_empty() { String::new() } else { hex_text(rest) }
}
