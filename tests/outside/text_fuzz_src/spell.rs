//! Right texts of paths, with arguments in all spellings.

use crate::forms::FORMS;
use crate::kind::{Extent, Kind, Kind::*};
use crate::random::Random;

/// Numbers at the edge of many fields.
#[rustfmt::skip]
const EDGES: [u64; 14] = [
    0, 1, 9, 10, 0x7f, 0x80, 0xff, 0x100, 0x7fff, 0xffff, 0x7fff_ffff, 0xffff_ffff, 1 << 63,
    u64::MAX,
];
/// Characters of names of files, of one to four bytes.
#[rustfmt::skip]
const CHARACTERS: [char; 28] = [
    'a', 'B', 'z', '0', '9', '-', '.', '_', ' ', '\\', '(', ')', '"', ':', '~', '\u{a0}', '\u{e9}',
    '\u{7ff}', '\u{800}', '\u{2027}', '\u{202f}', '\u{d7ff}', '\u{e000}', '\u{fffd}', '\u{ffff}',
    '\u{10000}', '\u{1f600}', '\u{10ffff}',
];
/// The first of characters, and how many there are: near control characters, and all.
const NEAR_CONTROLS: [(u32, u64); 8] = [
    (0, 0x30),
    (0x78, 0x30),
    (0x610, 0x10),
    (0x2000, 0x40),
    (0x2060, 0x10),
    (0xfe00, 0x200),
    (0, 0x3000),
    (0, 0x11_0000),
];

/// A path: one to several nodes, in some texts also instances.
pub fn path(random: &mut Random) -> String {
    let mut text = String::new();
    if random.index(20) == 0 {
        text.push(',');
    }
    let most = if random.index(100) == 0 { 40 } else { 4 };
    for index in 0..random.index(most) {
        if index > 0 {
            text.push(if random.index(6) == 0 { ',' } else { '/' });
        }
        text.push_str(&node(random));
    }
    if random.index(40) == 0 {
        text.push(',');
    }
    text
}

pub fn node(random: &mut Random) -> String {
    match random.index(48) {
        0..4 => file_name(random),
        4 => end_node(random),
        _ => call(random),
    }
}

/// A node of the type END, with or without data.
fn end_node(random: &mut Random) -> String {
    let subtype = random.one_of(&["1", "0x1", "255", "0xfF", "0255", "2"]);
    let data = random.one_of(&["", ",", ",AB", ",abcd"]);
    format!("Path({},{subtype}{data})", random.one_of(&["127", "0x7F", "0127"]))
}

/// A node that isn't a name of a file.
fn call(random: &mut Random) -> String {
    let form = random.one_of(&FORMS);
    let count = form.parameters.len() + if form.repeats { random.index(3) } else { 0 };
    let kind = |index: usize| form.parameters.get(index).or(form.parameters.last());
    let mut arguments: Vec<String> =
        (0..count).filter_map(kind).map(|kind| argument(random, kind)).collect();
    if random.index(8) == 0 {
        let from = random.index(count + 1);
        arguments[from..].iter_mut().for_each(String::clear);
    }
    while arguments.last().is_some_and(String::is_empty) && random.index(4) > 0 {
        arguments.pop();
    }
    format!("{}({})", form.name, arguments.join(","))
}

/// The name of a form.
pub fn name(random: &mut Random) -> &'static str {
    random.one_of(&FORMS).name
}

/// A character, of which a name of a file can't have all.
pub fn character(random: &mut Random) -> char {
    let (first, count) = random.one_of(&NEAR_CONTROLS);
    char::from_u32(first + random.below(count) as u32).unwrap_or('\u{fffd}')
}

fn file_name(random: &mut Random) -> String {
    let count = 1 + random.index(8);
    let has_others = random.index(8) == 0;
    let next = |random: &mut Random| {
        if has_others { character(random) } else { random.one_of(&CHARACTERS) }
    };
    let mut name: String = (0..count).map(|_| next(random)).collect();
    match random.index(8) {
        0 => name.insert_str(0, "\\EFI\\BOOT\\BOOTX64.EFI"),
        1 => name.insert_str(0, self::name(random)),
        2 => name.insert_str(0, "a.b("),
        _ => (),
    }
    name
}

/// A number of at most `most`, often a small one or one at an edge.
fn number(random: &mut Random, most: u64) -> u64 {
    let any = u64::from_le_bytes(random.bytes(8).try_into().expect("eight bytes"));
    match random.index(6) {
        0 => random.one_of(&EDGES).min(most),
        1 => most,
        2 => random.below(12).min(most),
        3 => (any >> random.index(64)).min(most),
        _ => any % most.saturating_add(1).max(1),
    }
}

fn spelled_number(random: &mut Random, number: u64) -> String {
    let zeros = "0".repeat(if random.index(8) == 0 { random.index(24) } else { 0 });
    match random.index(6) {
        0 => format!("0x{zeros}{number:x}"),
        1 => format!("0X{zeros}{number:X}"),
        2 => format!("0x{zeros}{number:X}"),
        3 => format!("0x{number:016X}"),
        _ => format!("{zeros}{number}"),
    }
}

/// Text in the pattern, with digits of either case.
fn in_pattern(random: &mut Random, pattern: &str) -> String {
    let digits = random.one_of(&[b"0123456789ABCDEF", b"0123456789abcdef", b"00001111abcdABCD"]);
    let character = |c: char| match c {
        'X' => char::from(random.one_of(digits)),
        'L' => char::from(b'@' + random.index(32) as u8),
        c => c,
    };
    pattern.chars().map(character).collect()
}

/// Printable characters of ASCII but quotes, commas and parentheses.
fn printable(random: &mut Random, most: usize) -> String {
    let characters: Vec<u8> = (b' '..=b'~').filter(|c| !b"(),\"".contains(c)).collect();
    (0..random.index(most + 1)).map(|_| char::from(random.one_of(&characters))).collect()
}

/// An IPv6 address, in any of its forms.
fn ipv6(random: &mut Random) -> String {
    let has_ipv4 = random.index(4) == 0;
    let count = if has_ipv4 { 6 } else { 8 };
    let mut groups: Vec<String> = (0..count).map(|_| group(random)).collect();
    if has_ipv4 {
        let numbers = [(); 4].map(|()| match random.index(4) {
            0 => format!("{:03}", random.byte()),
            _ => random.byte().to_string(),
        });
        groups.push(numbers.join("."));
    }
    if random.index(3) == 0 {
        return groups.join(":");
    }
    let start = random.index(count);
    let end = start + 1 + random.index(count - start);
    format!("{}::{}", groups[..start].join(":"), groups[end..].join(":"))
}

/// A group of an IPv6 address: one to four hex digits.
fn group(random: &mut Random) -> String {
    let number = u16::from_le_bytes([random.byte(), random.byte()]) >> random.index(16);
    match random.index(6) {
        0 => String::from("0"),
        1 => format!("{number:04X}"),
        2 => format!("{number:02x}"),
        3 => format!("{number:X}"),
        _ => format!("{number:x}"),
    }
}

/// An argument of a kind.
fn argument(random: &mut Random, kind: &Kind) -> String {
    match *kind {
        Empty(_) => String::new(),
        Word(word, _) => word.into(),
        Number(most, _) => {
            let number = number(random, most);
            spelled_number(random, number)
        }
        Digits(pattern, _) | Eisa(pattern) => in_pattern(random, pattern),
        Ipv4(_) => {
            let zeros = if random.index(12) == 0 { random.index(4) } else { 0 };
            let parts = [(); 4].map(|()| format!("{}{}", "0".repeat(zeros), random.byte()));
            parts.join(".")
        }
        Ipv6 => ipv6(random),
        Data(extent) => {
            let most = if let Extent::Padded(length) = extent { length } else { 12 };
            let count = random.index(most + 1);
            in_pattern(random, &"XX".repeat(count))
        }
        Text(extent) => {
            let most = if let Extent::Padded(length) = extent { length } else { 12 };
            printable(random, most)
        }
        Serial => format!("\"{}\"", printable(random, 8)),
        OneOf(kinds) => {
            let kind = random.index(kinds.len());
            argument(random, &kinds[kind])
        }
    }
}
