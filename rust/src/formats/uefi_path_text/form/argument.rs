// @generated from proved source. It is not edited.

use crate::formats::uefi_path_text::form::shape::Shape;
use crate::formats::uefi_path_text::form::size::Size;
use crate::formats::uefi_path_text::form::words::Words;

/// How a number is written. It is read in each way.
#[derive(Clone, Copy, Debug)]
pub(crate) enum Base {
    /// Hex digits without leading zeros.
    Hex,
    /// Two hex digits for each byte.
    LongHex,
    /// Decimal digits.
    Decimal,
}

/// What an argument of a node's text is.
#[derive(Clone, Copy, Debug)]
pub(crate) enum Argument {
    /// A number of this size, and how it is written.
    Number(Size, Base),
    /// A number of eight bytes that a node has with the highest byte first.
    BigEndian,
    /// A word for a number of this size.
    Word(Words, Size),
    /// Digits of a fixed shape.
    Digits(Shape),
    /// At most this many bytes, two hex digits each.
    Bytes(usize),
    /// The bytes of the address of network hardware, two hex digits each: six of Ethernet, which
    /// the type after the 32 bytes of the address says, or else 32.
    HardwareAddress,
    /// An IPv4 address.
    Ipv4,
    /// An IPv4 address, in 16 bytes.
    Ipv4Server,
    /// An IPv6 address. It is written as eight groups of four digits.
    Ipv6,
    /// A compressed EISA identifier, such as `PNP0A03`.
    EisaId,
    /// The same, written only if its letters are `PNP`.
    PnpId,
    /// The letters of a compressed EISA identifier, as a number of two bytes.
    EisaLetters,
    /// The number of a drive bay.
    DriveBay,
    /// A text of at most this many bytes.
    Text(usize),
    /// The same, written only if it isn't empty.
    Name(usize),
    /// A text in quotes, in units.
    Quoted,
}
