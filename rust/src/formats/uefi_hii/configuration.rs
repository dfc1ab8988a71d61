// @generated from proved source. It is not edited.

#[cfg(feature = "alloc")]
use alloc::string::String;
#[cfg(feature = "alloc")]
use alloc::vec::Vec;

#[cfg(feature = "alloc")]
use crate::formats::uefi_hii::error::{ConfigHdrSection, ParseError};
#[cfg(feature = "alloc")]
use crate::formats::uefi_hii::peeked::PeekedPairs;
#[cfg(feature = "alloc")]
use crate::formats::uefi_hii::reading::read_group;
#[cfg(feature = "alloc")]
use crate::formats::uefi_base::Guid;
#[cfg(feature = "alloc")]
use crate::formats::uefi_path::BoxedDevicePath;

/// An element of a configuration: a part of its block of bytes (UEFI 2.10, 35.2.1 "String Syntax").
///
/// In the text it is the pairs `OFFSET`, `WIDTH` and `VALUE`, in this order, and the pairs that
/// follow them, up to the next `OFFSET` or `GUID`.
#[cfg(feature = "alloc")]
#[non_exhaustive]
pub struct ConfigurationStringElement {
    /// Where the bytes begin in the block.
    pub offset: u64,
    /// How many bytes the element has, as `WIDTH` states. Whether `value` has as many isn't tested.
    pub width: u64,
    /// The bytes that `VALUE` spells, in the order of memory: those that the text spells last come
    /// first.
    pub value: Vec<u8>,
    /// The pairs that follow `VALUE`, up to the next whose key is `OFFSET` or `GUID`, in order. A
    /// key that comes again is kept again.
    pub nvconfig: Vec<NvPair>,
}

#[cfg(feature = "alloc")]
impl core::fmt::Debug for ConfigurationStringElement {
    fn fmt(&self, f: &mut core::fmt::Formatter<'_>) -> core::fmt::Result {
        f.debug_struct("ConfigurationStringElement")
            .field("offset", &self.offset)
            .field("width", &self.width)
            .field("value", &crate::support::debug::Bytes(&self.value))
            .field("nvconfig", &self.nvconfig)
            .finish()
    }
}

/// A pair that follows the value of an element (UEFI 2.10, 35.2.1 "String Syntax", `NvConfig`).
///
/// Key and value are kept as the text has them: nothing is read as hex.
#[cfg(feature = "alloc")]
#[derive(Debug)]
#[non_exhaustive]
pub struct NvPair {
    /// The text before the first `=`, or the whole piece where it has none. It may be empty.
    pub key: String,
    /// The text after the first `=`, if there is one.
    pub value: Option<String>,
}

/// A configuration (UEFI 2.10, 35.2.1 "String Syntax"): what a driver's form holds, or an
/// alternative of it.
///
/// In the text it is the pairs `GUID`, `NAME` and one with the path, perhaps `ALTCFG`, and then
/// those of the elements. All numbers, names and bytes are spelled in hex, as the functions
/// `parse_.._from_hex` say.
///
/// # Examples
///
/// A setting is the value at an offset and a width:
///
/// ```
/// use uefi_formats::proto::hii::config_str::{ConfigurationString, ParseError};
///
/// /// Returns the bytes of the first element that has this offset and this width, if there is one.
/// fn value_of(configuration: &ConfigurationString, offset: u64, width: u64) -> Option<&[u8]> {
///     let mut elements = configuration.elements.iter();
///     let element = elements.find(|it| it.offset == offset && it.width == width)?;
///     Some(&element.value)
/// }
///
/// let text = "GUID=16d6474bd6a852459d44ccad2e0f4cf9&NAME=0041&PATH=7fff0400&OFFSET=01d8&WIDTH=0001&VALUE=2a";
/// let configuration = ConfigurationString::from_str(text)?;
/// assert_eq!(configuration.name, "A");
/// assert_eq!(value_of(&configuration, 0x1d8, 1), Some([0x2a].as_slice()));
/// # Ok::<(), ParseError>(())
/// ```
#[cfg(feature = "alloc")]
#[derive(Debug)]
#[non_exhaustive]
pub struct ConfigurationString {
    /// The GUID by which the driver routes the configuration.
    pub guid: Guid,
    /// The name of the configuration, as UTF-8.
    pub name: String,
    /// The device path that the value of the third pair begins with, whatever its key.
    pub device_path: BoxedDevicePath,
    /// The low 16 bits of `ALTCFG`, which an alternative configuration has.
    pub alt_cfg_id: Option<u16>,
    /// The elements, in order.
    pub elements: Vec<ConfigurationStringElement>,
}

#[cfg(feature = "alloc")]
impl ConfigurationString {
    /// Returns the first configuration of a text.
    ///
    /// The other configurations are neither read nor tested: [`parse_all`](crate::formats::uefi_hii::parse_all) and
    /// [`MultiConfigurationStringIter`](crate::formats::uefi_hii::MultiConfigurationStringIter) give all of them.
    ///
    /// # Errors
    ///
    /// Pairs are read in order, and the first that is missing or wrong decides:
    ///
    /// - [`ParseError::ConfigHdr`] with the part of the header that it is; with
    ///   [`ConfigHdrSection::Guid`] also for a text without pairs.
    /// - [`ParseError::BlockName`] if an element doesn't begin with `OFFSET` and `WIDTH`, both with
    ///   a number.
    /// - [`ParseError::BlockConfig`] if `VALUE` doesn't follow them.
    /// - [`ParseError::Memory`] if an allocation fails before an error is found. [`ParseError`] says
    ///   which pairs are judged before memory is asked for.
    #[inline]
    pub fn from_str(text: &str) -> Result<ConfigurationString, ParseError> {
        let mut pairs = PeekedPairs::new(text);
        if pairs.is_empty() {
            return Err(ParseError::ConfigHdr(ConfigHdrSection::Guid));
        }
        read_group(&mut pairs)
    }
}
