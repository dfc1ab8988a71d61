// @generated from proved source. It is not edited.

//! The readers of a group of pairs: a header, and then elements.

#[cfg(feature = "alloc")]
use alloc::vec::Vec;
#[cfg(feature = "alloc")]
use crate::support::fallible::*;

#[cfg(feature = "alloc")]
use crate::formats::uefi_hii::configuration::{ConfigurationString, ConfigurationStringElement};
#[cfg(feature = "alloc")]
use crate::formats::uefi_hii::error::{ConfigHdrSection, ParseError};
#[cfg(feature = "alloc")]
use crate::formats::uefi_hii::filling::hex_bytes;
#[cfg(feature = "alloc")]
use crate::formats::uefi_hii::keys;
#[cfg(feature = "alloc")]
use crate::formats::uefi_hii::peeked::PeekedPairs;
#[cfg(feature = "alloc")]
use crate::formats::uefi_hii::taking::{
    take_alt_cfg_id, take_guid, take_name, take_number, take_nvconfig, take_path,
};
#[cfg(feature = "alloc")]
use crate::formats::uefi_hii::taking::take_value;
#[cfg(feature = "alloc")]
use crate::support::alloc::AllocError;

/// Returns the configuration or the error of the group that the pairs begin with. What is left are
/// the pairs after the group.
#[cfg(feature = "alloc")]
#[inline]
pub(crate) fn read_group(
    pairs: &mut PeekedPairs<'_>,
) -> Result<ConfigurationString, ParseError> {
    let mut configuration = read_header(pairs)?;
    if pairs.is_empty() {
        return Ok(configuration);
    }
    loop {
        let element = read_element(pairs)?;
        if configuration.elements.fallible_push(element).is_err() {
            return Err(ParseError::Memory);
        }
        if !pairs.is_at(keys::OFFSET) {
            return Ok(configuration);
        }
    }
}

/// Returns the header that the pairs begin with, as a configuration without elements yet.
#[cfg(feature = "alloc")]
#[inline]
fn read_header(
    pairs: &mut PeekedPairs<'_>,
) -> Result<ConfigurationString, ParseError> {
    let Some(guid) = take_guid(pairs) else {
        return Err(ParseError::ConfigHdr(ConfigHdrSection::Guid));
    };
    let Some(name) = take_name(pairs)? else {
        return Err(ParseError::ConfigHdr(ConfigHdrSection::Name));
    };
    let Some(device_path) = take_path(pairs)? else {
        return Err(ParseError::ConfigHdr(ConfigHdrSection::Path));
    };
    let alt_cfg_id = take_alt_cfg_id(pairs)?;
    Ok(ConfigurationString {
        guid,
        name,
        device_path,
        alt_cfg_id,
        elements: Vec::new(),
    })
}

/// Returns the element that the pairs begin with, with the pairs that it skips.
#[cfg(feature = "alloc")]
#[inline]
fn read_element(
    pairs: &mut PeekedPairs<'_>,
) -> Result<ConfigurationStringElement, ParseError> {
    let Some(offset) = take_number(pairs, keys::OFFSET) else {
        return Err(ParseError::BlockName);
    };
    let Some(width) = take_number(pairs, keys::WIDTH) else {
        return Err(ParseError::BlockName);
    };
    let Some(text) = take_value(pairs, keys::VALUE) else {
        return Err(ParseError::BlockConfig);
    };
    let value = reversed_bytes(text)?;
    let nvconfig = take_nvconfig(pairs)?;
    Ok(ConfigurationStringElement {
        offset,
        width,
        value,
        nvconfig,
    })
}

/// Returns the bytes that a text spells, the last first.
#[cfg(feature = "alloc")]
#[inline]
fn reversed_bytes(text: &str) -> Result<Vec<u8>, AllocError> {
    let mut bytes = hex_bytes(text)?;
    bytes.reverse();
    Ok(bytes)
}
