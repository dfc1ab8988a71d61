// @generated from proved source. It is not edited.

use crate::formats::uefi_path_text::form::Parameter;
use crate::formats::uefi_path_text::form::argument::{Argument, Base};
use crate::formats::uefi_path_text::form::shape::Shape;
use crate::formats::uefi_path_text::form::size::Size;
use crate::formats::uefi_path_text::form::words::Words;

/// A number of a byte, or else 0.
pub(crate) const U8: Parameter = Parameter {
    argument: Argument::Number(Size::One, Base::Hex),
    default: "0",
};

/// A number of two bytes, or else 0.
pub(crate) const U16: Parameter = Parameter {
    argument: Argument::Number(Size::Two, Base::Hex),
    default: "0",
};

/// A number of four bytes, or else 0.
pub(crate) const U32: Parameter = Parameter {
    argument: Argument::Number(Size::Four, Base::Hex),
    default: "0",
};

/// A number of eight bytes, or else 0.
pub(crate) const U64: Parameter = Parameter {
    argument: Argument::Number(Size::Eight, Base::Hex),
    default: "0",
};

/// The class, subclass or protocol of a USB device, or else that of every device.
pub(crate) const CLASS: Parameter = Parameter {
    argument: Argument::Number(Size::One, Base::Hex),
    default: "0xFF",
};

/// The vendor or product of a USB device, or else that of every device.
pub(crate) const IDENTIFIER: Parameter = Parameter {
    argument: Argument::Number(Size::Two, Base::Hex),
    default: "0xFFFF",
};

/// A number of eight bytes whose node has the highest byte first, or else 0.
pub(crate) const BIG_ENDIAN: Parameter = Parameter {
    argument: Argument::BigEndian,
    default: "0",
};

/// A GUID, which can't be left out.
pub(crate) const GUID: Parameter = Parameter {
    argument: Argument::Digits(Shape::Guid),
    default: "",
};

/// An IPv4 address, which can't be left out.
pub(crate) const IPV4: Parameter = Parameter {
    argument: Argument::Ipv4,
    default: "",
};

/// An IPv4 address, or else `0.0.0.0`.
pub(crate) const OPTIONAL_IPV4: Parameter = Parameter {
    argument: Argument::Ipv4,
    default: "0.0.0.0",
};

/// An IPv6 address, which can't be left out.
pub(crate) const IPV6: Parameter = Parameter {
    argument: Argument::Ipv6,
    default: "",
};

/// An IPv6 address, or else `::`.
pub(crate) const OPTIONAL_IPV6: Parameter = Parameter {
    argument: Argument::Ipv6,
    default: "::",
};

/// The digit `0`, which can be left out.
pub(crate) const ZERO: Parameter = Parameter {
    argument: Argument::Word(Words::Zero, Size::One),
    default: "0",
};

/// An identifier of EISA, which can't be left out.
pub(crate) const EISA_ID: Parameter = Parameter {
    argument: Argument::EisaId,
    default: "",
};

/// A number of two bytes that is written in decimal, or else 0.
pub(crate) const DECIMAL_U16: Parameter = Parameter {
    argument: Argument::Number(Size::Two, Base::Decimal),
    default: "0",
};

/// A number of four bytes that is written in decimal, or else 0.
pub(crate) const DECIMAL_U32: Parameter = Parameter {
    argument: Argument::Number(Size::Four, Base::Decimal),
    default: "0",
};

/// The data of a node of any type, which can't be left out.
pub(crate) const NODE_DATA: Parameter = Parameter {
    argument: Argument::Bytes(65531),
    default: "",
};

/// What follows the GUID of a vendor.
pub(crate) const VENDOR_DATA: Parameter = Parameter {
    argument: Argument::Bytes(65515),
    default: "",
};

/// A string of an extended ACPI device.
pub(crate) const STRING: Parameter = Parameter {
    argument: Argument::Text(65516),
    default: "",
};

/// The same, if it isn't empty.
pub(crate) const SOME_STRING: Parameter = Parameter {
    argument: Argument::Name(65516),
    default: "",
};

/// The interface of a SAS device.
pub(crate) const SAS_INTERFACE: Parameter = Parameter {
    argument: Argument::Word(Words::SasInterface, Size::Two),
    default: "",
};

/// The location of a SAS device.
pub(crate) const SAS_LOCATION: Parameter = Parameter {
    argument: Argument::Word(Words::SasLocation, Size::Two),
    default: "",
};

/// The connection of a SAS device.
pub(crate) const SAS_CONNECTION: Parameter = Parameter {
    argument: Argument::Word(Words::SasConnection, Size::Two),
    default: "",
};

/// The drive bay of a SAS device, or else 0, which says that it isn't known.
pub(crate) const DRIVE_BAY: Parameter = Parameter {
    argument: Argument::DriveBay,
    default: "0",
};

/// The word that says that nothing is known of a SAS device.
pub(crate) const NO_TOPOLOGY: Parameter = Parameter {
    argument: Argument::Word(Words::NoTopology, Size::Two),
    default: "",
};

/// The digit `0` for a number of four bytes, which can be left out.
pub(crate) const ZERO_U32: Parameter = Parameter {
    argument: Argument::Word(Words::Zero, Size::Four),
    default: "0",
};

/// The letters of an identifier of EISA, as a number, which can't be left out.
pub(crate) const EISA_LETTERS: Parameter = Parameter {
    argument: Argument::EisaLetters,
    default: "",
};

/// A network protocol, or else 0.
pub(crate) const PROTOCOL: Parameter = Parameter {
    argument: Argument::Word(Words::Protocol, Size::Two),
    default: "0",
};

/// An address of six bytes, which can't be left out.
pub(crate) const ADDRESS: Parameter = Parameter {
    argument: Argument::Digits(Shape::Address),
    default: "",
};
