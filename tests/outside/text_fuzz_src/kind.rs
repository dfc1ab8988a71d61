//! Kinds of arguments: which texts are one, which begin one, and the bytes of each in a node.

use Kind::*;
use std::net::Ipv6Addr;

/// A set of texts, none of which has a comma or a parenthesis, with the bytes of each.
#[derive(Clone, Copy)]
pub enum Kind {
    /// The empty text, also if the argument is left out.
    Empty(&'static [u8]),
    Word(&'static str, &'static [u8]),
    /// A number up to the largest: decimal, or hex after `0x` or `0X`.
    Number(u64, Code),
    /// Hex digits in a pattern, and for each byte of the node the index of its two digits.
    Digits(&'static str, &'static [usize]),
    /// A compressed EISA identifier in a pattern: a number of three letters and four hex digits.
    Eisa(&'static str),
    /// An IPv4 address, and zeros up to this length.
    Ipv4(usize),
    /// An IPv6 address (RFC 4291, 2.2).
    Ipv6,
    /// Pairs of hex digits.
    Data(Extent),
    /// Printable characters of ASCII.
    Text(Extent),
    /// The same, but no quotes, between quotes: two bytes a character.
    Serial,
    /// A text of one of the kinds. The bytes are those by the first that has the text.
    OneOf(&'static [Kind]),
}

/// How a number is in a node.
#[derive(Clone, Copy)]
pub enum Code {
    Little(usize),
    Big(usize),
    /// A drive bay of a SAS device, 0 if it isn't known, in the two bytes of its topology.
    Bay,
}

/// How many bytes an argument has.
#[derive(Clone, Copy)]
pub enum Extent {
    /// As many as its text has.
    Free,
    /// So many, with zeros after those of its text.
    Padded(usize),
}

/// How a text fits a kind.
pub struct Fit {
    /// The length of the longest prefix of the text that an argument begins with.
    pub viable: usize,
    /// Whether only its length keeps the next character from being viable.
    pub is_full: bool,
    /// The bytes of the argument that the text is, if it is one.
    pub value: Option<Vec<u8>>,
}

impl Fit {
    /// The fit of a text with a viable prefix. The bytes are those of the whole text.
    fn new(text: &str, viable: usize, value: impl FnOnce() -> Option<Vec<u8>>) -> Fit {
        let value = if viable == text.len() { value() } else { None };
        Fit { viable, is_full: false, value }
    }

    /// The fit of one of two kinds.
    fn or(self, other: Fit) -> Fit {
        let value = self.value.or(other.value);
        let farthest = if other.viable > self.viable { other.is_full } else { self.is_full };
        Fit { viable: self.viable.max(other.viable), is_full: farthest, value }
    }
}

impl Code {
    fn width(self) -> usize {
        match self {
            Code::Little(width) | Code::Big(width) => width,
            Code::Bay => 2,
        }
    }

    fn bytes(self, number: u64) -> Vec<u8> {
        match self {
            Code::Little(width) => number.to_le_bytes()[..width].to_vec(),
            Code::Big(width) => number.to_be_bytes()[8 - width..].to_vec(),
            Code::Bay if number == 0 => vec![1, 0],
            Code::Bay => vec![2, (number - 1) as u8],
        }
    }
}

impl Extent {
    /// The most bytes that a text may have of those that are left in its node.
    fn most(self, room: usize) -> usize {
        if let Extent::Padded(length) = self { length } else { room }
    }

    fn filled(self, mut bytes: Vec<u8>) -> Vec<u8> {
        if let Extent::Padded(length) = self {
            bytes.resize(length, 0);
        }
        bytes
    }

    fn size(self) -> Option<usize> {
        if let Extent::Padded(length) = self { Some(length) } else { None }
    }
}

impl Kind {
    /// How many bytes each argument has, or `None` if they have different numbers of bytes.
    pub fn size(&self) -> Option<usize> {
        match *self {
            Empty(bytes) | Word(_, bytes) => Some(bytes.len()),
            Number(_, code) => Some(code.width()),
            Digits(_, order) => Some(order.len()),
            Eisa(_) => Some(4),
            Ipv4(length) => Some(length),
            Ipv6 => Some(16),
            Data(extent) | Text(extent) => extent.size(),
            Serial => None,
            OneOf(kinds) => kinds.last().and_then(Kind::size),
        }
    }

    /// Fits a text that ends before a comma, before a parenthesis that closes or at the end, to
    /// arguments of at most so many bytes.
    pub fn fit(&self, text: &str, room: usize) -> Fit {
        match *self {
            Empty(bytes) => Fit::new(text, 0, || Some(bytes.to_vec())),
            Word(word, bytes) => {
                let viable = word.bytes().zip(text.bytes()).take_while(|(a, b)| a == b).count();
                Fit::new(text, viable, || (text == word).then(|| bytes.to_vec()))
            }
            Number(most, code) => {
                let (viable, number) = number(text, most);
                Fit::new(text, viable, || number.map(|it| code.bytes(it)))
            }
            Digits(pattern, order) => {
                let value = || {
                    let bytes = hex(text);
                    order.iter().map(|index| bytes[*index]).collect()
                };
                Fit::new(text, viable_in(pattern, text), || is_whole(pattern, text).then(value))
            }
            Eisa(pattern) => {
                let value = || eisa_id(text).to_le_bytes().to_vec();
                Fit::new(text, viable_in(pattern, text), || is_whole(pattern, text).then(value))
            }
            Ipv4(length) => {
                let (viable, address) = ipv4(text);
                Fit::new(text, viable, || address.map(|it| Extent::Padded(length).filled(it)))
            }
            Ipv6 => {
                let address = ipv6(text);
                let viable = if address.is_some() { text.len() } else { viable_ipv6(text) };
                Fit::new(text, viable, || address.map(|it| it.octets().to_vec()))
            }
            Data(extent) => data(text, extent, room),
            Text(extent) => self::text(text, extent, room),
            Serial => serial(text, room),
            OneOf(kinds) => {
                kinds.iter().map(|it| it.fit(text, room)).reduce(Fit::or).expect("a kind")
            }
        }
    }
}

/// The length of the longest prefix that a number up to the largest begins with, and the number
/// that the text is.
fn digits(text: &str, radix: u32, most: u64) -> (usize, Option<u64>) {
    let mut number = 0;
    for (index, c) in text.char_indices() {
        let next = c.to_digit(radix).map(|it| number * u128::from(radix) + u128::from(it));
        match next.filter(|it| *it <= u128::from(most)) {
            Some(next) => number = next,
            None => return (index, None),
        }
    }
    (text.len(), Some(number as u64).filter(|_| !text.is_empty()))
}

/// The same of a number that is hex after `0x`.
fn number(text: &str, most: u64) -> (usize, Option<u64>) {
    match text.strip_prefix("0x").or(text.strip_prefix("0X")) {
        Some(text) => {
            let (viable, number) = digits(text, 16, most);
            (2 + viable, number)
        }
        None => digits(text, 10, most),
    }
}

/// The length of the longest prefix that is one of texts in the pattern, in which `X` is a hex
/// digit and `L` a letter of five bits.
fn viable_in(pattern: &str, text: &str) -> usize {
    let fits = |(expected, found): &(u8, u8)| match expected {
        b'X' => found.is_ascii_hexdigit(),
        b'L' => (b'@'..=b'_').contains(found),
        _ => expected == found,
    };
    pattern.bytes().zip(text.bytes()).take_while(fits).count()
}

fn is_whole(pattern: &str, text: &str) -> bool {
    pattern.len() == text.len()
}

/// The bytes of the hex digits of a text, two for each, without what is between them.
fn hex(text: &str) -> Vec<u8> {
    let digits: Vec<u32> = text.chars().filter_map(|c| c.to_digit(16)).collect();
    digits.chunks_exact(2).map(|pair| (16 * pair[0] + pair[1]) as u8).collect()
}

fn eisa_id(text: &str) -> u32 {
    let (letters, digits) = text.split_at(3);
    let vendor = letters.bytes().fold(0, |number, letter| number << 5 | u32::from(letter & 0x1f));
    u32::from_str_radix(digits, 16).expect("hex digits") << 16 | vendor
}

fn ipv4(text: &str) -> (usize, Option<Vec<u8>>) {
    let (mut start, mut bytes) = (0, Vec::new());
    for part in text.split('.') {
        if bytes.len() == 4 {
            // The dot before this part is one too many.
            return (start - 1, None);
        }
        let (viable, number) = digits(part, 10, 0xff);
        let Some(number) = number else { return (start + viable, None) };
        bytes.push(number as u8);
        start += part.len() + 1;
    }
    (text.len(), Some(bytes).filter(|it| it.len() == 4))
}

/// The address, by the standard library. That takes no zeros before a number of an IPv4 address, of
/// which there can be up to three digits here.
fn ipv6(text: &str) -> Option<Ipv6Addr> {
    let (groups, last) = text.split_at(text.rfind(':')? + 1);
    if !last.contains('.') {
        return text.parse().ok();
    }
    let without_zeros = |number: &str| match number.trim_start_matches('0') {
        _ if number.is_empty() || number.len() > 3 => None,
        "" => Some(String::from("0")),
        digits => Some(String::from(digits)),
    };
    let numbers: Option<Vec<String>> = last.split('.').map(without_zeros).collect();
    format!("{groups}{}", numbers?.join(".")).parse().ok()
}

/// What an address ends with after any text that one begins with.
const IPV6_ENDS: [&str; 8] = ["", ":", "::", "0", ".0", "0.0", ".0.0", "0.0.0"];

/// The length of the longest prefix that an address begins with.
fn viable_ipv6(text: &str) -> usize {
    let begins_one =
        |prefix: &str| IPV6_ENDS.iter().any(|it| ipv6(&format!("{prefix}{it}")).is_some());
    let ends = text.char_indices().map(|(offset, c)| offset + c.len_utf8());
    ends.take_while(|end| begins_one(&text[..*end])).last().unwrap_or(0)
}

fn data(text: &str, extent: Extent, room: usize) -> Fit {
    let count = text.bytes().take_while(u8::is_ascii_hexdigit).count();
    let viable = count.min(2 * extent.most(room));
    let value = || viable.is_multiple_of(2).then(|| extent.filled(hex(text)));
    Fit { is_full: viable < count, ..Fit::new(text, viable, value) }
}

fn is_text_character(c: &u8) -> bool {
    matches!(c, b' '..=b'~') && !b"(),".contains(c)
}

fn text(text: &str, extent: Extent, room: usize) -> Fit {
    let count = text.bytes().take_while(is_text_character).count();
    let viable = count.min(extent.most(room));
    let value = || Some(extent.filled(text.into()));
    Fit { is_full: viable < count, ..Fit::new(text, viable, value) }
}

fn serial(text: &str, room: usize) -> Fit {
    let Some(after) = text.strip_prefix('"') else { return Fit::new(text, 0, || None) };
    let count = after.bytes().take_while(|c| is_text_character(c) && *c != b'"').count();
    let viable = count.min(room / 2);
    let number = &after[..viable];
    let is_closed = after[viable..].starts_with('"');
    let value = || is_closed.then(|| number.bytes().flat_map(|c| [c, 0]).collect());
    let fit = Fit::new(text, 1 + viable + usize::from(is_closed), value);
    Fit { is_full: viable < count, ..fit }
}
