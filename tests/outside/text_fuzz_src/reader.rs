//! A reader of the texts of paths: instances with `,` between them, of nodes with `/` between them. A `/` may follow a
//! `,` before a node.

use crate::form::{MAX_DATA, Node};
use crate::forms;
use crate::{Error, Fault};

const INSTANCE_END: [u8; 4] = [0x7f, 0x01, 4, 0];
const PATH_END: [u8; 4] = [0x7f, 0xff, 4, 0];
const FILE_PATH: [u8; 2] = [4, 4];
/// The most UTF-16 units of a name of a file, without its NUL.
pub const MAX_UNITS: usize = MAX_DATA / 2 - 1;

/// Returns the bytes of the path of a text, or why there is none.
pub fn read(text: &str) -> Result<Vec<u8>, Fault> {
    let (mut path, mut at, mut begins_instance, mut follows_comma) = (Vec::new(), 0, true, false);
    loop {
        match text.as_bytes().get(at) {
            None if begins_instance => break,
            Some(b',') if begins_instance => {
                path.extend(INSTANCE_END);
                at += 1;
                follows_comma = true;
                continue;
            }
            Some(b'/') if follows_comma => {
                at += 1;
                (begins_instance, follows_comma) = (false, false);
                continue;
            }
            None | Some(b'/' | b',') => return Err(Fault { at, error: Error::Missing }),
            Some(_) => (),
        }
        let node = read_node(text, at)?;
        path.extend(&node.bytes);
        at = node.end;
        match text.as_bytes().get(at) {
            None if node.ends_path() => return Ok(path),
            None => break,
            Some(b',' | b'/') if !node.ends_path() => {
                begins_instance = text.as_bytes()[at] == b',';
                follows_comma = begins_instance;
                path.extend(INSTANCE_END.iter().filter(|_| begins_instance));
                at += 1;
            }
            Some(_) => return Err(Fault { at, error: Error::Argument }),
        }
    }
    path.extend(PATH_END);
    Ok(path)
}

/// The length of the name of a node's form, if the text begins with one and a parenthesis.
fn name_length(text: &str) -> Option<usize> {
    let is_name_character = |c: &u8| c.is_ascii_alphanumeric() || *c == b'-';
    let length = text.bytes().take_while(is_name_character).count();
    text[length..].starts_with('(').then_some(length)
}

/// Reads the node that begins at an offset.
fn read_node(text: &str, start: usize) -> Result<Node, Fault> {
    let Some(length) = name_length(&text[start..]) else { return read_file_name(text, start) };
    let open = start + length;
    let mut farthest: Option<Fault> = None;
    for form in forms::named(&text[start..open]) {
        match form.read(text, open + 1) {
            Ok(node) => return Ok(node),
            Err(fault) if farthest.is_none_or(|it| it.at < fault.at) => farthest = Some(fault),
            Err(_) => (),
        }
    }
    Err(farthest.unwrap_or_else(|| unknown_name(start, length)))
}

/// What is wrong with a name that no form has. Before the parenthesis it begins that of a file.
fn unknown_name(start: usize, length: usize) -> Fault {
    if length > MAX_UNITS {
        return Fault { at: start + MAX_UNITS, error: Error::TooLong };
    }
    Fault { at: start + length, error: Error::UnknownNode }
}

/// A control character of ASCII or Latin-1, of lines and paragraphs, or of the writing direction.
fn is_control(c: char) -> bool {
    let others = '\u{2028}'..='\u{202e}';
    let is_of_direction =
        matches!(c, '\u{61c}' | '\u{200e}' | '\u{200f}' | '\u{2066}'..='\u{2069}');
    c.is_control() || others.contains(&c) || is_of_direction
}

/// Reads a name of a file, which ends before a slash, before a comma or at the end.
fn read_file_name(text: &str, start: usize) -> Result<Node, Fault> {
    let rest = &text[start..];
    let name = &rest[..rest.find(['/', ',']).unwrap_or(rest.len())];
    let mut units = Vec::new();
    for (index, c) in name.char_indices() {
        let at = start + index;
        if is_control(c) {
            return Err(Fault { at, error: Error::Argument });
        }
        if units.len() + c.len_utf16() > MAX_UNITS {
            return Err(Fault { at, error: Error::TooLong });
        }
        units.extend_from_slice(c.encode_utf16(&mut [0; 2]));
    }
    units.push(0);
    let length = (4 + 2 * units.len()) as u16;
    let units = units.iter().flat_map(|unit| unit.to_le_bytes());
    let bytes = FILE_PATH.into_iter().chain(length.to_le_bytes()).chain(units).collect();
    Ok(Node { bytes, end: start + name.len() })
}
