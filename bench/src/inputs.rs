//! The inputs of the readers that are measured, made from a fixed seed: as machines have them, and large.

use crate::random::Random;
use crate::readers::log2::{NO_ACTION, ROW_LENGTH, SIGNATURE};
use crate::readers::node::{ACPI, FILE_PATH, HARD_DRIVE, NVME, PCI};
use crate::readers::path::{END, END_ENTIRE, END_INSTANCE, HEADER};
use crate::readers::{info, pci};

/// What the numbers of each input follow from, so that each run has the same.
const SEED: u64 = 0x9e37_79b9_7f4a_7c15;

/// The stride of a map.
pub const STRIDE: usize = 48;

/// A configuration's header with the name A and a path of one node.
const CONFIG_HEADER: &str = "GUID=16d6474bd6a852459d44ccad2e0f4cf9&NAME=0041&PATH=7fff0400";

/// Algorithms, each with the size of its digests: SHA-1, SHA-256, SHA-384 and SHA-512.
const ALGORITHMS: [(u16, u16); 4] = [(0x04, 20), (0x0b, 32), (0x0c, 48), (0x0d, 64)];

fn push_numbers(bytes: &mut Vec<u8>, numbers: impl IntoIterator<Item = u32>) {
    bytes.extend(numbers.into_iter().flat_map(u32::to_le_bytes));
}

fn hex_digits(count: usize, random: &mut Random) -> Vec<u8> {
    (0..count).map(|_| random.one_of(b"0123456789abcdef")).collect()
}

/// A path of nodes with data of 0 to 24 bytes. Each 50th ends an instance.
pub fn path(count: usize) -> Vec<u8> {
    let (mut random, mut bytes) = (Random(SEED), Vec::new());
    for i in 1..count {
        if i % 50 == 0 {
            bytes.extend([END, END_INSTANCE, 4, 0]);
            continue;
        }
        let length = random.below(25);
        bytes.extend([random.below(6) as u8, random.byte()]);
        bytes.extend((length as u16 + HEADER as u16).to_le_bytes());
        bytes.extend(random.bytes(length));
    }
    bytes.extend([END, END_ENTIRE, 4, 0]);
    bytes
}

/// The nodes of so many boot options, each a file on a partition of an NVMe drive, in one path.
pub fn boot_path(count: usize) -> Vec<u8> {
    let (mut random, mut bytes) = (Random(SEED), Vec::new());
    for _ in 0..count {
        for (device_type, sub_type, length) in [ACPI, PCI, NVME, HARD_DRIVE, FILE_PATH] {
            bytes.extend([device_type, sub_type]);
            bytes.extend((length as u16 + HEADER as u16).to_le_bytes());
            bytes.extend(random.bytes(length as u64));
        }
    }
    bytes.extend([END, END_ENTIRE, 4, 0]);
    bytes
}

/// Events of version 1 with data of 0 to 40 bytes.
pub fn log1(count: usize) -> Vec<u8> {
    let (mut random, mut bytes) = (Random(SEED), Vec::new());
    for _ in 0..count {
        let length = random.below(41);
        push_numbers(&mut bytes, [random.below(24) as u32, random.below(14) as u32]);
        bytes.extend(random.bytes(20));
        push_numbers(&mut bytes, [length as u32]);
        bytes.extend(random.bytes(length));
    }
    bytes
}

/// The event with the header of a log under these rows.
fn log2_header(rows: &[(u16, u16)]) -> Vec<u8> {
    let mut bytes = Vec::new();
    push_numbers(&mut bytes, [0, NO_ACTION, 0, 0, 0, 0, 0]);
    push_numbers(&mut bytes, [SIGNATURE.len() as u32 + 13 + (ROW_LENGTH * rows.len()) as u32]);
    bytes.extend(SIGNATURE);
    bytes.extend([0, 0, 0, 0, 0, 2, 0, 2]);
    push_numbers(&mut bytes, [rows.len() as u32]);
    bytes.extend(rows.iter().flat_map(|row| [row.0, row.1]).flat_map(u16::to_le_bytes));
    bytes.push(0);
    bytes
}

/// Events of version 2 with data of 0 to 40 bytes, and with a digest for each row.
pub fn log2<const ROWS: usize>(count: usize) -> Vec<u8> {
    let rows = &ALGORITHMS[..ROWS];
    let (mut random, mut bytes) = (Random(SEED), log2_header(rows));
    for _ in 0..count {
        let length = random.below(41);
        push_numbers(&mut bytes, [random.below(24) as u32, random.below(14) as u32, ROWS as u32]);
        for (algorithm, digest) in rows {
            bytes.extend(algorithm.to_le_bytes());
            bytes.extend(random.bytes((*digest).into()));
        }
        push_numbers(&mut bytes, [length as u32]);
        bytes.extend(random.bytes(length));
    }
    bytes
}

/// Descriptors in order.
pub fn map(count: usize) -> Vec<u8> {
    let (mut random, mut bytes, mut start) = (Random(SEED), Vec::new(), 0u64);
    for _ in 0..count {
        let pages = 1 + random.below(64);
        let numbers = [random.below(15), start, 0, pages, 0xf, 0];
        bytes.extend(numbers.into_iter().flat_map(u64::to_le_bytes));
        start += pages * 4096;
    }
    bytes
}

/// A file information record with a name of so many units and the NUL.
pub fn info(count: usize) -> Vec<u8> {
    let (mut random, mut bytes) = (Random(SEED), vec![0; info::NAME_OFFSET]);
    bytes.extend((0..count).flat_map(|_| (1 + random.below(0xd7ff) as u16).to_le_bytes()));
    bytes.extend([0, 0]);
    bytes.resize(bytes.len().next_multiple_of(info::ALIGNMENT), 0);
    bytes
}

/// Ranges of all types, and the end tag.
pub fn resources(count: usize) -> Vec<u8> {
    let (mut random, mut bytes) = (Random(SEED), Vec::new());
    for _ in 0..count {
        bytes.extend([pci::RECORD_TAG, 0x2b, 0, random.below(4) as u8]);
        bytes.extend(random.bytes(42));
    }
    bytes.extend([pci::END_TAG, 0]);
    bytes
}

/// Times with fields within their ranges. Each 50th has a month that is none.
pub fn times(count: usize) -> Vec<u8> {
    let (mut random, mut bytes) = (Random(SEED), Vec::new());
    for i in 0..count {
        let month = if i % 50 == 49 { 13 } else { 1 + random.below(12) as u8 };
        bytes.extend((1900 + random.below(8100) as u16).to_le_bytes());
        bytes.extend([month, 1 + random.below(31) as u8]);
        bytes.extend([random.below(24) as u8, random.below(60) as u8, random.below(60) as u8, 0]);
        push_numbers(&mut bytes, [random.below(1_000_000_000) as u32]);
        bytes.extend((random.below(2881) as i16 - 1440).to_le_bytes());
        bytes.extend([random.below(4) as u8, 0]);
    }
    bytes
}

/// Configurations of 42 elements, each with a value of 32 bytes. With the header and the number of
/// the alternative, each configuration has 130 pairs and 4 KB.
pub fn configurations(length: usize) -> Vec<u8> {
    let (mut random, mut bytes) = (Random(SEED), Vec::new());
    while bytes.len() < length {
        let between = if bytes.is_empty() { "" } else { "&" };
        bytes.extend(format!("{between}{CONFIG_HEADER}&ALTCFG=0001").bytes());
        for offset in 0..42 {
            bytes.extend(format!("&OFFSET={:04x}&WIDTH=0020&VALUE=", 32 * offset).bytes());
            bytes.extend(hex_digits(64, &mut random));
        }
    }
    bytes
}

/// A configuration of one element with a long value.
pub fn value(digits: usize) -> Vec<u8> {
    let start = format!("{CONFIG_HEADER}&OFFSET=00&WIDTH={:08x}&VALUE=", digits / 2);
    [start.into_bytes(), self::digits(digits)].concat()
}

/// Digits alone.
pub fn digits(count: usize) -> Vec<u8> {
    hex_digits(count, &mut Random(SEED))
}
