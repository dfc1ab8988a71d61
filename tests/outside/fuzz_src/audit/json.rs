//! Texts of JSON, and texts on a line.

use std::fmt::Display;

/// How many characters of a text, or bytes, are shown.
const LONGEST: usize = 1000;

/// An object of members, each `key: value`, or the name of a variable that has the value.
macro_rules! object {
    ($($key:ident $(: $value:expr)?),*) => {
        crate::audit::json::object(&[$((stringify!($key), &object!(@ $key $($value)?))),*])
    };
    (@ $key:ident) => { $key };
    (@ $key:ident $value:expr) => { $value };
}

/// An object of those members that have a value, in this order.
pub fn object(members: &[(&str, &dyn Display)]) -> String {
    let members = members.iter().map(|(key, value)| format!("\"{key}\":{value}"));
    let members: Vec<_> = members.filter(|member| !member.ends_with(':')).collect();
    format!("{{{}}}", members.join(","))
}

pub fn array(items: impl IntoIterator<Item: Display>) -> String {
    let items: Vec<_> = items.into_iter().map(|it| it.to_string()).collect();
    format!("[{}]", items.join(","))
}

/// Whether a character is a control, of which a text shows only the number.
fn is_control(c: char) -> bool {
    let is_mark = matches!(c, '\u{61c}' | '\u{200e}' | '\u{200f}' | '\u{2066}'..='\u{2069}');
    c.is_control() || is_mark || matches!(c, '\u{2028}'..='\u{202e}')
}

/// A text between quotation marks.
pub fn text(text: &str) -> String {
    let escaped = |c: char| match c {
        '"' | '\\' | '\t' | '\n' | '\r' => c.escape_default().to_string(),
        '\u{8}' => "\\b".to_owned(),
        '\u{c}' => "\\f".to_owned(),
        c if is_control(c) => format!("\\u{:04x}", u32::from(c)),
        _ => c.to_string(),
    };
    format!("\"{}\"", text.chars().map(escaped).collect::<String>())
}

pub fn hex(bytes: &[u8]) -> String {
    bytes.iter().map(|byte| format!("{byte:02x}")).collect()
}

/// Bytes in hex, between quotation marks.
pub fn hex_text(bytes: &[u8]) -> String {
    text(&hex(bytes))
}

/// How many items there are more than those that are shown.
pub fn more(count: usize, shown: usize) -> String {
    if count > shown { format!("..({} more)", count - shown) } else { String::new() }
}

/// The first characters of a text on a line.
pub fn shown(text: &str) -> String {
    let first: String = text.chars().take(LONGEST).collect();
    escaped(&first) + &more(text.chars().count(), LONGEST)
}

/// The first of bytes that are no text, on a line.
pub fn shown_bytes(bytes: &[u8]) -> String {
    escaped_bytes(&bytes[..bytes.len().min(LONGEST)]) + &more(bytes.len(), LONGEST)
}

/// The first bytes in hex.
pub fn shown_hex(bytes: &[u8]) -> String {
    hex(&bytes[..bytes.len().min(LONGEST)]) + &more(bytes.len(), LONGEST)
}

/// The blocks of characters that aren't seen, besides controls.
#[rustfmt::skip]
const UNSEEN: [(u32, u32); 20] = [
    (0xa0, 0xa0), (0xad, 0xad), (0x34f, 0x34f), (0x115f, 0x1160), (0x1680, 0x1680), (0x17b4, 0x17b5), (0x180b, 0x180f),
    (0x2000, 0x200f), (0x202a, 0x202f), (0x205f, 0x206f), (0x3000, 0x3000), (0x3164, 0x3164), (0xe000, 0xf8ff),
    (0xfe00, 0xfe0f), (0xfeff, 0xfeff), (0xffa0, 0xffa0), (0xfff0, 0xfffb), (0x1bca0, 0x1bca3), (0x1d173, 0x1d17a),
    (0xe0000, 0x10ffff),
];

/// A text on a line, with the bytes of what doesn't print, and of a backslash, in hex.
pub fn escaped(text: &str) -> String {
    let is_unseen = |c: char| UNSEEN.iter().any(|it| (it.0..=it.1).contains(&c.into()));
    let hex = |c: char| c.to_string().bytes().map(|byte| format!("\\x{byte:02x}")).collect();
    let is_hidden = |c| c == '\\' || is_control(c) || is_unseen(c);
    let shown = |c| if is_hidden(c) { hex(c) } else { String::from(c) };
    text.chars().map(shown).collect()
}

/// Bytes that are no text, on a line: characters of ASCII that print, and the others in hex.
pub fn escaped_bytes(bytes: &[u8]) -> String {
    let prints = |byte: u8| (b' '..=b'~').contains(&byte) && byte != b'\\';
    let shown = |byte: &u8| {
        if prints(*byte) { char::from(*byte).to_string() } else { format!("\\x{byte:02x}") }
    };
    bytes.iter().map(shown).collect()
}
