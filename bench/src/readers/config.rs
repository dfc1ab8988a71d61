//! Configuration strings: a plain reader of pairs, hex and configurations.

use super::path::{Stop, split};
use std::iter::Peekable;

/// The pairs of a text, each a key and perhaps a value.
pub struct Pairs<'a> {
    pub rest: &'a str,
}

impl<'a> Iterator for Pairs<'a> {
    type Item = (&'a str, Option<&'a str>);

    fn next(&mut self) -> Option<(&'a str, Option<&'a str>)> {
        if self.rest.is_empty() {
            return None;
        }
        let (piece, rest) = self.rest.split_once('&').unwrap_or((self.rest, ""));
        self.rest = rest;
        Some(piece.split_once('=').map_or((piece, None), |(key, value)| (key, Some(value))))
    }
}

fn digit(c: u8) -> Option<u8> {
    char::from(c).to_digit(16).map(|digit| digit as u8)
}

/// The byte that one or two characters spell: 0 where they aren't digits.
fn byte(chars: &[u8]) -> u8 {
    match *chars {
        [b'+', c] | [c] => digit(c).unwrap_or(0),
        [c, d] => digit(c).zip(digit(d)).map_or(0, |(high, low)| high * 16 + low),
        _ => 0,
    }
}

pub fn hex(text: &str) -> impl DoubleEndedIterator<Item = u8> + ExactSizeIterator {
    text.as_bytes().chunks(2).map(byte)
}

fn number(text: &str) -> Option<u64> {
    let bytes = hex(text);
    let is_number = matches!(bytes.len(), 1 | 2 | 4 | 8);
    is_number.then(|| bytes.fold(0, |number, byte| number << 8 | u64::from(byte)))
}

fn guid(text: &str) -> Option<[u8; 16]> {
    hex(text).collect::<Vec<u8>>().try_into().ok()
}

/// The text of units, each of two bytes, the high byte first. An odd last byte is half a NUL.
fn name(text: &str) -> Option<String> {
    if text.len() % 2 != 0 {
        return None;
    }
    let mut bytes = hex(text);
    let mut name = String::new();
    while let Some(high) = bytes.next() {
        let Some(low) = bytes.next() else {
            return (high == 0).then_some(name);
        };
        let unit = u16::from_be_bytes([high, low]);
        name.push(char::from_u32(unit.into()).filter(|c| *c != '\0')?);
    }
    Some(name)
}

/// The name of what is wrong with a group of pairs.
type Fault = &'static str;

pub struct Element {
    pub offset: u64,
    pub width: u64,
    pub value: Vec<u8>,
    /// The pairs that follow the value, up to the next offset or GUID.
    pub nvconfig: Vec<(String, Option<String>)>,
}

pub struct Configuration {
    pub guid: [u8; 16],
    pub name: String,
    pub path: Box<[u8]>,
    pub alt_cfg_id: Option<u16>,
    pub elements: Vec<Element>,
}

/// The configurations of a text, and a fault for each group of pairs that is none.
pub struct Configurations<'a> {
    pairs: Peekable<Pairs<'a>>,
}

impl<'a> Configurations<'a> {
    pub fn new(text: &'a str) -> Configurations<'a> {
        Configurations { pairs: Pairs { rest: text }.peekable() }
    }

    /// The value of the next pair, if it has the key and a value.
    fn take(&mut self, key: &str) -> Option<&'a str> {
        self.pairs.next().filter(|(found, _)| *found == key)?.1
    }

    fn is_at(&mut self, key: &str) -> bool {
        self.pairs.peek().is_some_and(|(found, _)| *found == key)
    }

    fn take_path(&mut self) -> Option<Box<[u8]>> {
        let bytes: Vec<u8> = hex(self.pairs.next()?.1?).collect();
        let (path, _) = split(&bytes, Stop::EndEntire)?;
        Some(path.into())
    }

    fn read(&mut self) -> Result<Configuration, Fault> {
        let guid = self.take("GUID").and_then(guid).ok_or("ConfigHdr(Guid)")?;
        let name = self.take("NAME").and_then(name).ok_or("ConfigHdr(Name)")?;
        let path = self.take_path().ok_or("ConfigHdr(Path)")?;
        let mut alt_cfg_id = None;
        if self.is_at("ALTCFG") {
            let id = self.take("ALTCFG").and_then(number).ok_or("ConfigHdr(DescHdr)")?;
            alt_cfg_id = Some(id as u16);
        }
        let mut elements = Vec::new();
        while self.pairs.peek().is_some() {
            elements.push(self.read_element()?);
            if !self.is_at("OFFSET") {
                break;
            }
        }
        Ok(Configuration { guid, name, path, alt_cfg_id, elements })
    }

    fn read_element(&mut self) -> Result<Element, Fault> {
        let offset = self.take("OFFSET").and_then(number).ok_or("BlockName")?;
        let width = self.take("WIDTH").and_then(number).ok_or("BlockName")?;
        let value = hex(self.take("VALUE").ok_or("BlockConfig")?).rev().collect();
        let mut nvconfig = Vec::new();
        let is_skipped = |(key, _): &(&str, _)| !matches!(*key, "OFFSET" | "GUID");
        while let Some((key, value)) = self.pairs.next_if(is_skipped) {
            nvconfig.push((key.to_owned(), value.map(str::to_owned)));
        }
        Ok(Element { offset, width, value, nvconfig })
    }
}

impl Iterator for Configurations<'_> {
    type Item = Result<Configuration, Fault>;

    fn next(&mut self) -> Option<Result<Configuration, Fault>> {
        self.pairs.peek()?;
        Some(self.read())
    }
}
