//! Texts of which a node is as long as one can be, or nearly, or longer.

use crate::form::MAX_DATA;
use crate::random::Random;
use crate::reader::MAX_UNITS;
use crate::spell;

const GUID: &str = "01234567-89AB-CDEF-FEDC-BA9876543210";
const IPV6: &str = "2001:0DB8:0000:0000:0000:0000:0000:00";
/// What may follow the node.
#[rustfmt::skip]
const TAILS: [&str; 18] = [
    "", "", "", "/", ",", "/A", ",A", "/Pci(1,2)", ",Pci(1,2)/a", "x", ")", "(", ",,", "//",
    "\u{1}", "\u{e9}", "/Foo(1)", "\u{1f600}",
];
/// Characters that mutations put in.
#[rustfmt::skip]
const FAULTS: [char; 14] = [
    '(', ')', ',', '/', '"', 'x', 'G', '0', '\u{0}', '\u{7f}', '\u{e9}', '\u{ffff}', '\u{1f600}',
    '\u{2028}',
];
/// Names of forms that have a GUID and data.
const VENDORS: [&str; 3] = ["VenHw", "VenMsg", "VenMedia"];
const OF_TYPES: [&str; 5] = ["HardwarePath", "AcpiPath", "Msg", "MediaPath", "BbsPath"];

/// A path with a node of this kind.
pub fn path(random: &mut Random) -> String {
    let mut text = long_node(random);
    if random.index(3) == 0 {
        spoil(random, &mut text);
    }
    text.push_str(random.one_of(&TAILS));
    if random.index(16) == 0 {
        text = format!("{text}/{}", long_node(random));
    }
    if random.index(4) == 0 {
        text = format!("{}/{text}", spell::node(random));
    }
    text
}

/// Replaces, inserts or takes out a character near the start, near the end or between them.
fn spoil(random: &mut Random, text: &mut String) {
    let near = random.index(12).min(text.len());
    let at = match random.index(4) {
        0 => near,
        1 => random.index(text.len()),
        _ => text.len() - near,
    };
    let at = text.floor_char_boundary(at);
    let end = text[at..].chars().next().map_or(at, |c| at + c.len_utf8());
    match random.index(4) {
        0 => text.insert(at, random.one_of(&FAULTS)),
        1 => text.truncate(at),
        2 => text.replace_range(at..end, ""),
        _ => text.replace_range(at..end, random.one_of(&FAULTS).encode_utf8(&mut [0; 4])),
    }
}

fn long_node(random: &mut Random) -> String {
    match random.index(15) {
        0..=2 => file_name(random),
        3 => like_a_name(random),
        4 => expanded(random),
        5 => expanded_short(random),
        6 => addresses(random),
        7 => servers(random),
        8 => serial_number(random),
        9 => strings(random),
        10 => number(random),
        11 => many(random),
        _ => data(random),
    }
}

/// A number of at most three more or less.
fn near(random: &mut Random, limit: usize) -> usize {
    limit + random.index(8) - 4
}

/// Printable characters, as many as are said.
fn filled(random: &mut Random, length: usize) -> String {
    let letter = String::from(char::from(b'a' + random.index(26) as u8));
    let digit = String::from(char::from(b'0' + random.index(10) as u8));
    let letters = random.index(length + 1);
    letter.repeat(letters) + &digit.repeat(length - letters)
}

/// A name of a file, with characters of one and of two units.
fn file_name(random: &mut Random) -> String {
    let units = near(random, MAX_UNITS);
    let pairs = random.one_of(&[0, 0, 1, 2, 3, 100, units / 2]);
    let single = random.one_of(&["a", ".", "\u{e9}", "\u{4e00}", "\u{ffff}"]);
    let mut parts = [single.repeat(units - 2 * pairs), "\u{1f600}".repeat(pairs), "_".into()];
    if random.index(2) == 0 {
        parts.swap(0, 1);
    }
    let cut = random.index(64);
    let name = parts.concat();
    let at = name.floor_char_boundary(cut);
    format!("{}{}{}", &name[..at], char::from(b'A' + random.index(26) as u8), &name[at..])
}

/// A name with a parenthesis, which no form has.
fn like_a_name(random: &mut Random) -> String {
    let length = near(random, MAX_UNITS);
    let length = if random.index(4) == 0 { length + random.index(40_000) } else { length };
    format!("{}(1)", filled(random, length))
}

/// Three lengths whose sum is this.
fn shares(random: &mut Random, sum: usize) -> [usize; 3] {
    let first = random.index(sum + 1);
    let second = random.index(sum - first + 1);
    match random.index(4) {
        0 => [sum, 0, 0],
        1 => [0, 0, sum],
        _ => [first, second, sum - first - second],
    }
}

fn expanded(random: &mut Random) -> String {
    let sum = near(random, MAX_DATA - 12 - 3);
    let strings = shares(random, sum).map(|length| filled(random, length));
    format!("AcpiEx(PNP0A03,PNP0A08,{},{})", random.index(9), strings.join(","))
}

fn expanded_short(random: &mut Random) -> String {
    let length = near(random, MAX_DATA - 12 - 3);
    format!("AcpiExp(PNP0A03,{},{})", random.one_of(&["", "0", "PNP0A08"]), filled(random, length))
}

fn addresses(random: &mut Random) -> String {
    let count = near(random, MAX_DATA / 4);
    let number = random.one_of(&["0", "1", "0xF", "4294967295"]);
    let numbers = vec![number; count].join(",");
    let close = random.one_of(&[")", ")", ")", ",)", ",0)", ",x)", "", ","]);
    format!("AcpiAdr({},{numbers}{close}", random.index(100))
}

fn servers(random: &mut Random) -> String {
    let count = near(random, (MAX_DATA - 1) / 16);
    let byte = random.byte();
    let address = match random.index(3) {
        0 => format!("10.0.0.{byte}"),
        1 => format!("FE80::{byte:x}"),
        _ => format!("{IPV6}{byte:02X}"),
    };
    let close = random.one_of(&[")", ")", ")", ",)", ",1.2.3.4)", ",x)", "", ","]);
    format!("Dns({}{close}", vec![address; count].join(","))
}

fn serial_number(random: &mut Random) -> String {
    let length = near(random, (MAX_DATA - 6) / 2);
    let close = random.one_of(&["\")", "\")", "\")", ")", "\",)", "\""]);
    format!("UsbWwid(1,2,3,\"{}{close}", filled(random, length))
}

/// Text of a form that has a single text of any length.
fn strings(random: &mut Random) -> String {
    let (before, others, after) = random.one_of(&[
        ("Uri(", 0, ""),
        ("iSCSI(", 15, ",1,2,None,None,None,TCP"),
        ("BBS(HD,", 5, ",1"),
        ("BBS(,", 5, ""),
    ]);
    let length = near(random, MAX_DATA - others);
    let close = random.one_of(&[")", ")", ")", ",", "", ",,,,,,,,)"]);
    format!("{before}{}{after}{close}", filled(random, length))
}

/// A number with many zeros before it, which is as short as others in a node.
fn number(random: &mut Random) -> String {
    let zeros = "0".repeat(random.index(1 << 17));
    let (before, after) = random.one_of(&[
        ("Pci(", "255,0)"),
        ("Pci(0,", "256)"),
        ("Pci(0x", "ff,0)"),
        ("Acpi(0X", "100000000)"),
        ("IPv4(1.", "255.3.4)"),
        ("Dns(1.2.3.", "256)"),
        ("SasEx(1,2,3,SAS,Internal,Direct,", "256)"),
    ]);
    format!("{before}{zeros}{after}")
}

/// A node or an empty instance, many times.
fn many(random: &mut Random) -> String {
    let node = random.one_of(&[",", "a/", "a,", "Pci(1,2)/", "SAS(),", "\u{1f600}/", "Uri(a),,"]);
    format!("{}{}", node.repeat(1 + random.index(1 << 14)), random.one_of(&["", "a", "/", "Pci("]))
}

/// Data in hex, of which half a byte may be missing.
fn data(random: &mut Random) -> String {
    let (before, others) = match random.index(3) {
        0 => {
            let device_type = random.one_of(&[0, 1, 4, 0x7f, 0xff]);
            (format!("Path({device_type},{},", random.one_of(&[0, 1, 4, 10, 0xff])), 0)
        }
        1 => (format!("{}({},", random.one_of(&OF_TYPES), random.byte()), 0),
        _ => (format!("{}({GUID},", random.one_of(&VENDORS)), 16),
    };
    let digits = near(random, 2 * (MAX_DATA - others));
    let pair = format!("{:02x}", random.byte());
    let close = random.one_of(&[")", ")", ")", ",)", "", "G)", "0)"]);
    format!("{before}{}{}{close}", pair.repeat(digits / 2), "A".repeat(digits % 2))
}
