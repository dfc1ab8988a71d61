//! Device paths: a plain reader of borrowed parts, which tests each bound.

pub const END: u8 = 0x7f;
pub const END_INSTANCE: u8 = 0x01;
pub const END_ENTIRE: u8 = 0xff;
pub const HEADER: usize = 4;

#[derive(Clone, Copy)]
pub struct Node<'a> {
    bytes: &'a [u8],
}

impl<'a> Node<'a> {
    /// The node that the bytes begin with.
    fn first(bytes: &'a [u8]) -> Option<Node<'a>> {
        let length = usize::from(u16::from_le_bytes([*bytes.get(2)?, *bytes.get(3)?]));
        if length < HEADER {
            return None;
        }
        Some(Node { bytes: bytes.get(..length)? })
    }

    pub fn device_type(&self) -> u8 {
        self.bytes[0]
    }

    pub fn sub_type(&self) -> u8 {
        self.bytes[1]
    }

    fn is_end_entire(&self) -> bool {
        self.bytes[0] == END && self.bytes[1] == END_ENTIRE
    }

    pub fn data(&self) -> &'a [u8] {
        &self.bytes[HEADER..]
    }
}

#[derive(Clone, Copy)]
pub enum Stop {
    AnyEnd,
    EndEntire,
}

impl Stop {
    fn stops_at(self, node: &Node<'_>) -> bool {
        match self {
            Stop::AnyEnd => node.device_type() == END,
            Stop::EndEntire => node.is_end_entire(),
        }
    }
}

/// The bytes of the nodes up to the first at which it stops, and the bytes after them.
pub fn split(bytes: &[u8], stop: Stop) -> Option<(&[u8], &[u8])> {
    let mut at = 0;
    loop {
        let node = Node::first(&bytes[at..])?;
        at += node.bytes.len();
        if stop.stops_at(&node) {
            return Some(bytes.split_at(at));
        }
    }
}

pub struct Nodes<'a> {
    pub rest: &'a [u8],
    pub stop: Stop,
}

impl<'a> Iterator for Nodes<'a> {
    type Item = Node<'a>;

    fn next(&mut self) -> Option<Node<'a>> {
        let node = Node::first(self.rest)?;
        if self.stop.stops_at(&node) {
            self.rest = &[];
            return None;
        }
        self.rest = &self.rest[node.bytes.len()..];
        Some(node)
    }
}

/// The bytes of each instance.
pub fn instances(mut rest: &[u8]) -> impl Iterator<Item = &[u8]> {
    std::iter::from_fn(move || {
        let (front, after) = split(rest, Stop::AnyEnd)?;
        rest = after;
        Some(front)
    })
}
