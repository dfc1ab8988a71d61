// @generated from proved source. It is not edited.

//! UEFI configuration strings, read from texts (UEFI 2.10, 35.2.1 "String Syntax").
//!
//! A configuration string says what a driver's form holds: pairs of keys and values in hex, joined
//! by `&`. A text has any number of configurations, one after another, of which some may be wrong.
//!
//! Begin with [`ConfigurationString::from_str`] for the first configuration of a text, with
//! [`MultiConfigurationStringIter`] for one after another, or with [`parse_all`] for all of them.
//! Each gives a configuration that owns its memory, or the error of a group of pairs in which one
//! is missing or wrong. [`ConfigurationStringIter`] gives the pairs themselves, and takes no
//! memory.

#[cfg(feature = "alloc")]
pub use self::configuration::{ConfigurationString, ConfigurationStringElement, NvPair};
pub use self::error::{ConfigHdrSection, ParseError};
// For the functions for C, or for tests: they compile these files too.
#[cfg(feature = "alloc")]
#[allow(unused_imports)] pub(crate) use self::filling::fill_from_hex;
pub use self::hex::HexBytes;
#[cfg(feature = "alloc")]
pub use self::multi::{MultiConfigurationStringIter, parse_all};
pub use self::pairs::ConfigurationStringIter;
// For the functions for C, or for tests: they compile these files too.
#[allow(unused_imports)]
pub(crate) use self::pairs::next_pair;

mod configuration;
mod digit;
mod error;
mod filling;
mod finding;
mod hex;
pub mod keys;
mod multi;
mod pairs;
mod peeked;
mod reading;
mod taking;
mod values;
