//! Mutations of texts.

use crate::random::Random;
use crate::spell;

/// Texts that mutations put in.
#[rustfmt::skip]
const FRAGMENTS: [&str; 80] = [
    "(", ")", ",", "/", "()", ",,", "//", ")/", "),", "\"", "\"\"", "-", ".", ":", "::", "\\", " ",
    "0", "0x", "0X", "00", "-1", "255", "256", "257", "65535", "65536", "0xFFFF", "0x10000",
    "4294967295", "4294967296", "18446744073709551615", "18446744073709551616",
    "0x10000000000000000", "A", "abc", "PNP0A03", "pnp0a03", "@@@0000", "None", "Static", "DHCP",
    "TCP", "UDP", "DEFAULT", "NoTopology", "SAS,Internal,Direct,1", "MBR", "GPT", "HD", "Primary",
    "Slave", "1.5", "10.0.0.1", "CRC32C", "2001:0DB8:0000:0000:0000:0000:0000:0001",
    "01234567-89AB-CDEF-FEDC-BA9876543210", "Path(127,1)", "Path(127,255)", "Path(127,255,AB)",
    "Path(0x7F,1,)", "Foo(1)", "UartFlowControl(1)", "FvVol(1)", "::1", ":::", "1::2::3", ":1",
    "1:2:3:4:5:6:7:8", "1:2:3:4:5:6:7::", "::2:3:4:5:6:7:8", "1:2:3:4:5:6:1.2.3.4",
    "1:2:3:4:5:1.2.3.4", "::FFFF:129.144.52.38", "1.2.3.4::", "::001.02.3.0004", "12345::",
    "fe80::1%eth0", "::g", "2001:DB8::8:800:200C:417A",
];
/// Characters that mutations put in.
#[rustfmt::skip]
const CHARACTERS: [char; 44] = [
    '(', ')', ',', '/', '"', '-', '.', ':', '\\', ' ', '0', '1', '2', '5', '6', '9', 'a', 'f', 'g',
    'x', 'A', 'F', 'G', 'N', 'S', 'X', '@', '[', '_', '`', '~', '\0', '\n', '\u{1f}', '\u{7f}',
    '\u{85}', '\u{a0}', '\u{e9}', '\u{61c}', '\u{200e}', '\u{2028}', '\u{2069}', '\u{ffff}',
    '\u{1f600}',
];
const SEPARATORS: [char; 4] = ['(', ')', ',', '/'];

/// A text with one mutation or more.
pub fn mutated(random: &mut Random, mut text: String) -> String {
    loop {
        mutate(random, &mut text);
        if random.index(5) < 3 {
            return text;
        }
    }
}

/// An offset at which a character begins, or the end.
fn offset(random: &mut Random, text: &str) -> usize {
    text.floor_char_boundary(random.index(text.len() + 1))
}

/// The end of the character that begins at an offset.
fn after(text: &str, offset: usize) -> usize {
    offset + text[offset..].chars().next().map_or(0, char::len_utf8)
}

/// A part of the text between separators.
fn part(random: &mut Random, text: &str) -> (usize, usize) {
    let at = offset(random, text);
    let start = text[..at].rfind(SEPARATORS).map_or(0, |it| it + 1);
    let end = text[at..].find(SEPARATORS).map_or(text.len(), |it| at + it);
    (start, end)
}

fn mutate(random: &mut Random, text: &mut String) {
    let at = offset(random, text);
    let next = after(text, at);
    match random.index(15) {
        0 => text.replace_range(at..next, character(random).encode_utf8(&mut [0; 4])),
        1 => text.insert(at, character(random)),
        2 => text.replace_range(at..next, ""),
        3 => text.truncate(at),
        4 => text.insert_str(at, random.one_of(&FRAGMENTS)),
        5 => replace_part(random, text),
        6 => double_part(random, text),
        7 => delete_part(random, text),
        8 => change_case(random, text),
        9 => swap_separator(random, text),
        10 => change_name(random, text),
        11 => {
            let other = spell::path(random);
            let from = offset(random, &other);
            text.replace_range(at.., &other[from..]);
        }
        12 => text.insert(at, char::from(b'0' + random.index(10) as u8)),
        13 => {
            text.truncate(at);
            text.push(char::from(random.index(0x80) as u8));
        }
        _ => swap_parts(random, text),
    }
}

fn character(random: &mut Random) -> char {
    if random.index(8) == 0 { spell::character(random) } else { random.one_of(&CHARACTERS) }
}

fn replace_part(random: &mut Random, text: &mut String) {
    let (start, end) = part(random, text);
    text.replace_range(start..end, random.one_of(&FRAGMENTS));
}

/// Puts a part in twice, with a separator between.
fn double_part(random: &mut Random, text: &mut String) {
    let (start, end) = part(random, text);
    let again = format!("{}{}", random.one_of(&[",", ",/", "/"]), &text[start..end]);
    text.insert_str(end, &again);
}

/// Takes a part out, with or without the separator after it.
fn delete_part(random: &mut Random, text: &mut String) {
    let (start, end) = part(random, text);
    let end = if random.index(2) == 0 { after(text, end) } else { end };
    text.replace_range(start..end, "");
}

/// Changes the case of a character, or of all of a part.
fn change_case(random: &mut Random, text: &mut String) {
    let (start, end) = part(random, text);
    let is_upper = random.index(2) == 0;
    let old = &text[start..end];
    let new = if is_upper { old.to_ascii_uppercase() } else { old.to_ascii_lowercase() };
    text.replace_range(start..end, &new);
}

fn swap_separator(random: &mut Random, text: &mut String) {
    let (_, end) = part(random, text);
    let next = after(text, end);
    text.replace_range(end..next, random.one_of(&SEPARATORS).encode_utf8(&mut [0; 4]));
}

/// Gives arguments another name.
fn change_name(random: &mut Random, text: &mut String) {
    if let Some(end) = text.find('(') {
        let start = text[..end].rfind(['/', ',']).map_or(0, |it| it + 1);
        text.replace_range(start..end, spell::name(random));
    }
}

/// Swaps a part with the one after it.
fn swap_parts(random: &mut Random, text: &mut String) {
    let (start, end) = part(random, text);
    let from = after(text, end);
    let to = text[from..].find(SEPARATORS).map_or(text.len(), |it| from + it);
    let swapped = format!("{}{}{}", &text[from..to], &text[end..from], &text[start..end]);
    text.replace_range(start..to, &swapped);
}
