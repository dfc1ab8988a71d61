//! Forms of nodes: a name, kinds of arguments, and where the node has the bytes of each.

use crate::kind::Kind;
use crate::{Error, Fault};

/// The most bytes of the data of a node, whose length field counts four bytes before them too.
pub const MAX_DATA: usize = 65531;
const END: u8 = 0x7f;
const END_INSTANCE: u8 = 0x01;
const END_ENTIRE: u8 = 0xff;

/// The type and the subtype of nodes.
#[derive(Clone, Copy)]
pub enum Head {
    Is(u8, u8),
    /// A type. The subtype is the first argument.
    OfType(u8),
    /// The first argument and the second one.
    Any,
}

/// A part of the data of nodes.
#[derive(Clone, Copy)]
pub enum Part {
    Bytes(&'static [u8]),
    /// The bytes of an argument.
    Of(usize),
    /// The bits of arguments of the same size.
    Bits(&'static [usize]),
}

pub struct Form {
    pub name: &'static str,
    pub head: Head,
    pub parameters: &'static [Kind],
    /// Whether more arguments of the last kind may follow, with their bytes after the others'.
    pub repeats: bool,
    pub data: &'static [Part],
}

/// A node that was read, and where its text ends.
pub struct Node {
    pub bytes: Vec<u8>,
    pub end: usize,
}

impl Node {
    /// Whether no node can follow.
    pub fn ends_path(&self) -> bool {
        self.bytes[..2] == [END, END_ENTIRE]
    }

    /// Whether it ends an instance or a path, and has no data. Its text isn't that of a form.
    fn is_plain_end(&self) -> bool {
        let is_end = self.bytes[0] == END && [END_INSTANCE, END_ENTIRE].contains(&self.bytes[1]);
        is_end && self.bytes.len() == 4
    }
}

impl Form {
    pub const fn new(
        name: &'static str,
        head: Head,
        parameters: &'static [Kind],
        data: &'static [Part],
    ) -> Form {
        Form { name, head, parameters, repeats: false, data }
    }

    /// A form whose last argument is one or more, one after the other.
    pub const fn list(
        name: &'static str,
        head: Head,
        parameters: &'static [Kind],
        data: &'static [Part],
    ) -> Form {
        Form { name, head, parameters, repeats: true, data }
    }

    fn parameter(&self, index: usize) -> Option<&'static Kind> {
        self.parameters.get(index).or(self.parameters.last().filter(|_| self.repeats))
    }

    /// How many bytes of the data don't depend on the arguments.
    pub fn fixed_size(&self) -> usize {
        let of_argument = |index: usize| self.parameters[index].size().unwrap_or(0);
        let size = |part: &Part| match *part {
            Part::Bytes(bytes) => bytes.len(),
            Part::Of(_) if self.repeats => 0,
            Part::Of(index) => of_argument(index),
            Part::Bits(indices) => of_argument(indices[0]),
        };
        self.data.iter().map(size).sum()
    }

    /// Reads arguments, which begin at an offset of the text, and the parenthesis after them.
    pub fn read(&self, text: &str, start: usize) -> Result<Node, Fault> {
        let (mut at, mut room) = (start, MAX_DATA - self.fixed_size());
        let mut values: Vec<Vec<u8>> = Vec::new();
        if self.parameters.is_empty() {
            return self.close(text, at, values);
        }
        loop {
            let kind = self.parameter(values.len()).expect("a parameter");
            let rest = &text[at..];
            let argument = &rest[..rest.find([',', ')']).unwrap_or(rest.len())];
            let fit = kind.fit(argument, room);
            at += fit.viable;
            if fit.viable < argument.len() {
                let error = if fit.is_full { Error::TooLong } else { Error::Argument };
                return Err(Fault { at, error });
            }
            let Some(value) = fit.value else { return Err(Fault { at, error: Error::Missing }) };
            if self.repeats || kind.size().is_none() {
                room -= value.len();
            }
            values.push(value);
            if !text[at..].starts_with(',') {
                return self.close(text, at, values);
            }
            self.check_next(values.len(), room, at)?;
            at += 1;
        }
    }

    /// Checks that an argument can follow the comma at an offset.
    fn check_next(&self, count: usize, room: usize, at: usize) -> Result<(), Fault> {
        match self.parameter(count) {
            None => Err(Fault { at, error: Error::Argument }),
            Some(kind) if self.repeats && kind.size().is_some_and(|it| it > room) => {
                Err(Fault { at, error: Error::TooLong })
            }
            Some(_) => Ok(()),
        }
    }

    /// Reads the parenthesis, before which the other arguments are left out.
    fn close(&self, text: &str, at: usize, mut values: Vec<Vec<u8>>) -> Result<Node, Fault> {
        if !text[at..].starts_with(')') {
            let error = if at == text.len() { Error::Missing } else { Error::Argument };
            return Err(Fault { at, error });
        }
        for kind in self.parameters.iter().skip(values.len()) {
            let Some(value) = kind.fit("", 0).value else {
                return Err(Fault { at, error: Error::Missing });
            };
            values.push(value);
        }
        let node = Node { bytes: self.node(&values), end: at + 1 };
        if node.is_plain_end() {
            return Err(Fault { at, error: Error::Argument });
        }
        Ok(node)
    }

    /// The node of arguments, by the bytes of each.
    fn node(&self, values: &[Vec<u8>]) -> Vec<u8> {
        let mut bytes = match self.head {
            Head::Is(device_type, subtype) => vec![device_type, subtype, 0, 0],
            Head::OfType(device_type) => vec![device_type, values[0][0], 0, 0],
            Head::Any => vec![values[0][0], values[1][0], 0, 0],
        };
        for part in self.data {
            match *part {
                Part::Bytes(part) => bytes.extend(part),
                Part::Of(index) if self.repeats => bytes.extend(values[index..].iter().flatten()),
                Part::Of(index) => bytes.extend(&values[index]),
                Part::Bits(indices) => {
                    let bits = |place| indices.iter().fold(0, |bits, it| bits | values[*it][place]);
                    bytes.extend((0..values[indices[0]].len()).map(bits));
                }
            }
        }
        let length = bytes.len() as u16;
        bytes[2..4].copy_from_slice(&length.to_le_bytes());
        bytes
    }
}
