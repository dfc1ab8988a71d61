// @generated from proved source. It is not edited.

//! Helpers of the readers: each takes the next pair, if it is the one that has to come.

#[cfg(feature = "alloc")]
use alloc::string::String;
#[cfg(feature = "alloc")]
use alloc::vec::Vec;
#[cfg(feature = "alloc")]
use crate::support::fallible::*;

#[cfg(feature = "alloc")]
use crate::formats::uefi_hii::configuration::{ConfigurationString, NvPair};
#[cfg(feature = "alloc")]
use crate::formats::uefi_hii::error::{ConfigHdrSection, ParseError};
#[cfg(feature = "alloc")]
use crate::formats::uefi_hii::filling::hex_bytes;
#[cfg(feature = "alloc")]
use crate::formats::uefi_hii::keys;
#[cfg(feature = "alloc")]
use crate::formats::uefi_hii::peeked::PeekedPairs;
#[cfg(feature = "alloc")]
use crate::support::alloc::AllocError;
#[cfg(feature = "alloc")]
use crate::formats::uefi_base::Guid;
#[cfg(feature = "alloc")]
use crate::formats::uefi_path::BoxedDevicePath;

/// Returns the next pair's value, if it has the key and a value.
#[cfg(feature = "alloc")]
#[inline]
pub(crate) fn take_value<'a>(pairs: &mut PeekedPairs<'a>, key: &str) -> Option<&'a str> {
    let (found, value) = pairs.next()?;
    if found != key {
        return None;
    }
    value
}

/// Returns the number of the next pair, if it has the key and a number.
#[cfg(feature = "alloc")]
#[inline]
pub(crate) fn take_number(pairs: &mut PeekedPairs<'_>, key: &str) -> Option<u64> {
    ConfigurationString::parse_number_from_hex(take_value(pairs, key)?)
}

/// Returns the GUID of the next pair, if it is one.
#[cfg(feature = "alloc")]
#[inline]
pub(crate) fn take_guid(pairs: &mut PeekedPairs<'_>) -> Option<Guid> {
    ConfigurationString::parse_guid_from_hex(take_value(pairs, keys::GUID)?)
}

/// Returns the name of the next pair, if it is one.
#[cfg(feature = "alloc")]
#[inline]
pub(crate) fn take_name(
    pairs: &mut PeekedPairs<'_>,
) -> Result<Option<String>, AllocError> {
    match take_value(pairs, keys::NAME) {
        Some(value) => ConfigurationString::parse_string_from_hex(value),
        None => Ok(None),
    }
}

/// Returns the path that the next pair's value begins with, if it does, whatever the key.
#[cfg(feature = "alloc")]
#[inline]
pub(crate) fn take_path(
    pairs: &mut PeekedPairs<'_>,
) -> Result<Option<BoxedDevicePath>, AllocError> {
    let Some((_, Some(value))) = pairs.next() else {
        return Ok(None);
    };
    let bytes = hex_bytes(value)?;
    Ok(BoxedDevicePath::try_from(bytes).ok())
}

/// Returns the identifier of an alternative configuration, if the next key is `ALTCFG`.
#[cfg(feature = "alloc")]
#[inline]
pub(crate) fn take_alt_cfg_id(pairs: &mut PeekedPairs<'_>) -> Result<Option<u16>, ParseError> {
    if !pairs.is_at(keys::ALTCFG) {
        return Ok(None);
    }
    match take_number(pairs, keys::ALTCFG) {
        Some(number) => Ok(Some((number & 0xffff) as u16)),
        None => Err(ParseError::ConfigHdr(ConfigHdrSection::DescHdr)),
    }
}

/// Returns the pairs up to the next whose key is `OFFSET` or `GUID`, or to the end, in order.
#[cfg(feature = "alloc")]
#[inline]
pub(crate) fn take_nvconfig(
    pairs: &mut PeekedPairs<'_>,
) -> Result<Vec<NvPair>, AllocError> {
    let mut nvconfig = Vec::new();
    while let Some((key, value)) = pairs.next_skipped() {
        let pair = nv_pair(key, value)?;
        nvconfig.fallible_push(pair)?;
    }
    Ok(nvconfig)
}

/// Returns a pair that owns its key and its value.
#[cfg(feature = "alloc")]
#[inline]
fn nv_pair(
    key: &str,
    value: Option<&str>,
) -> Result<NvPair, AllocError> {
    let key = String::fallible_from_str(key)?;
    let value = match value {
        Some(value) => Some(String::fallible_from_str(value)?),
        None => None,
    };
    Ok(NvPair { key, value })
}
