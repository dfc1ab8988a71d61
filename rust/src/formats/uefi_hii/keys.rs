// @generated from proved source. It is not edited.

//! The keys of the pairs that configurations are made of (UEFI 2.10, 35.2.1 "String Syntax").
//!
//! Keys are told apart by their case.

/// The identifier of an alternative configuration, a number.
pub const ALTCFG: &str = "ALTCFG";

/// The GUID of a configuration, with which its header begins.
pub const GUID: &str = "GUID";

/// The name of a configuration.
pub const NAME: &str = "NAME";

/// The offset of an element, a number of bytes.
pub const OFFSET: &str = "OFFSET";

/// The bytes of an element.
pub const VALUE: &str = "VALUE";

/// The width of an element, a number of bytes.
pub const WIDTH: &str = "WIDTH";
