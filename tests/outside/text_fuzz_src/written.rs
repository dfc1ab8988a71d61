//! Random paths, whose texts the package writes.

use crate::form::{Head, MAX_DATA};
use crate::forms::FORMS;
use crate::random::Random;
use crate::{reader, spell};
use std::iter;

const END: u8 = 0x7f;
const END_INSTANCE: u8 = 0x01;
const END_ENTIRE: u8 = 0xff;
/// Units of names of files.
#[rustfmt::skip]
const UNITS: [u16; 18] = [
    0x61, 0x5c, 0x28, 0x29, 0x2f, 0x2c, 0x2d, 0x0, 0x1f, 0x85, 0xe9, 0x200e, 0x2028, 0xd83d, 0xde00,
    0xd7ff, 0xe000, 0xffff,
];

/// The bytes of a path of up to four nodes.
pub fn path(random: &mut Random) -> Vec<u8> {
    let mut path: Vec<u8> = (0..random.index(5)).flat_map(|_| node(random)).collect();
    let data = if random.index(16) == 0 { random.bytes(3) } else { Vec::new() };
    path.extend(with_header([END, END_ENTIRE], data));
    path
}

/// Types of nodes of any length, and bytes that their data can have again and again.
const LONG: [([u8; 2], &[u8]); 12] = [
    ([6, 7], b"\xab"),
    ([1, 4], b"\x01"),
    ([2, 3], b"\x04\0\0\0"),
    ([3, 10], b"\xff"),
    ([3, 16], b"s\0"),
    ([3, 24], b"u"),
    ([3, 31], b"\0"),
    ([4, 4], b"f\0"),
    ([4, 4], b"\x3d\xd8\0\xde"),
    ([5, 1], b"b"),
    ([END, END_INSTANCE], b"\0"),
    ([END, 2], b"\0"),
];

/// The bytes of a path of a node that is as long as one can be, or nearly.
pub fn long_path(random: &mut Random) -> Vec<u8> {
    let (numbers, unit) = random.one_of(&LONG);
    let length = MAX_DATA - random.index(20);
    let mut data: Vec<u8> = unit.iter().copied().cycle().take(length).collect();
    match random.index(4) {
        0 => data[length - 1] = 0,
        1 | 2 => data[length - 2..].fill(0),
        _ => data[random.index(length)] = random.byte(),
    }
    let end = with_header([END, END_ENTIRE], Vec::new());
    [with_header(numbers, data), end].concat()
}

/// The bytes of a node that doesn't end a path.
fn node(random: &mut Random) -> Vec<u8> {
    match random.index(16) {
        0 => with_header([END, END_INSTANCE], Vec::new()),
        1 => {
            let subtype =
                if random.index(2) == 0 { END_INSTANCE } else { random.byte() % END_ENTIRE };
            with_header([END, subtype], data(random))
        }
        2 | 3 => with_header([4, 4], name(random)),
        4 => with_header([random.byte() % 8, random.byte() % 40], data(random)),
        5 | 6 => typed(random),
        _ => changed(random),
    }
}

fn with_header(numbers: [u8; 2], data: Vec<u8>) -> Vec<u8> {
    let length = (4 + data.len()) as u16;
    numbers.into_iter().chain(length.to_le_bytes()).chain(data).collect()
}

fn data(random: &mut Random) -> Vec<u8> {
    let scale = 1 << random.index(6);
    let count = random.below(scale);
    random.bytes(count)
}

/// Units of a name of a file, most with a NUL at the end.
fn name(random: &mut Random) -> Vec<u8> {
    let count = random.index(7);
    let mut units: Vec<u16> = (0..count).map(|_| random.one_of(&UNITS)).collect();
    units.extend(iter::once(0).filter(|_| random.index(8) > 0));
    units.iter().flat_map(|unit| unit.to_le_bytes()).collect()
}

/// A node of a type that has a form, with data of the length that fits it, or nearly.
fn typed(random: &mut Random) -> Vec<u8> {
    let form = random.one_of(&FORMS);
    let Head::Is(device_type, subtype) = form.head else {
        return with_header([1 + random.byte() % 5, random.byte() % 40], data(random));
    };
    let length = form.fixed_size() + if random.index(8) == 0 { random.index(20) } else { 0 };
    let is_sparse = random.index(2) == 0;
    let byte =
        |random: &mut Random| if is_sparse && random.index(4) > 0 { 0 } else { random.byte() };
    let data = (0..length).map(|_| byte(random)).collect();
    with_header([device_type, subtype], data)
}

/// The node of a right text, in most cases with bytes that differ.
fn changed(random: &mut Random) -> Vec<u8> {
    let text = spell::node(random);
    let Ok(mut bytes) = reader::read(&text) else { return typed(random) };
    bytes.truncate(usize::from(u16::from_le_bytes([bytes[2], bytes[3]])));
    let (numbers, mut data) = ([bytes[0], bytes[1]], bytes.split_off(4));
    for _ in 0..random.index(3) {
        let index = random.index(data.len() + 1);
        match (random.index(8), data.get_mut(index)) {
            (0, _) => data.truncate(index),
            (1, _) => data.insert(index, random.byte()),
            (2 | 3, Some(byte)) => *byte = random.byte(),
            (4, Some(byte)) => *byte = 0,
            (_, Some(byte)) => *byte ^= 1 << random.index(8),
            (_, None) => data.push(0),
        }
    }
    if numbers == [END, END_ENTIRE] {
        with_header([END, END_INSTANCE], data)
    } else {
        with_header(numbers, data)
    }
}
