// @generated from proved source. It is not edited.

use crate::support::fallible::*;

use crate::tcg_rows::samples::bytes_of;
use crate::rows::hex_digits;
use crate::tcg_event::{SignatureData, SignatureList, SignatureLists, SignatureType};
use crate::test_support::bytes;

/// Appends a list: its type, its header, the length of a signature, and each signature.
fn push_list(text: &mut String, list: &SignatureList<'_>) -> Option<()> {
    let header = hex_digits(list.header()).ok()?;
    let (guid, size) = (list.signature_type().0, list.signature_size());
    fallible_write!(text, "[{guid}, {header}, {size}").ok()?;
    for signature in list.iter() {
        let data = hex_digits(signature.data).ok()?;
        fallible_write!(text, ", ({}, {data})", signature.owner).ok()?;
    }
    text.fallible_push(']').ok()
}

/// Returns the lists that the bytes are. They have the bytes.
pub(crate) fn signature_lists(input: &str) -> Option<String> {
    let input = bytes_of(input)?;
    let Some(lists) = SignatureLists::read(input.as_slice()) else {
        return fallible_format!("None").ok();
    };
    if lists.as_bytes() != input.as_slice() {
        return fallible_format!("other bytes").ok();
    }
    let mut text = String::new();
    for list in lists.iter() {
        push_list(&mut text, &list)?;
    }
    Some(text)
}

/// Returns what the iterator over the signatures of the first list has left before the first one and
/// after it.
pub(crate) fn signature_steps(input: &str) -> Option<String> {
    let input = bytes_of(input)?;
    let mut left = SignatureLists::read(input.as_slice())?
        .iter()
        .next()?
        .iter();
    let before = (left.len(), left.size_hint());
    left.next();
    let after = (left.len(), left.size_hint());
    fallible_format!("({before:?}, {after:?})").ok()
}

/// Returns the owner and the data of the signature that the bytes are.
pub(crate) fn owned_signature(input: &str) -> Option<String> {
    let input = bytes(input).ok()?;
    let Some(signature) = SignatureData::read(input.as_slice()) else {
        return fallible_format!("None").ok();
    };
    let data = hex_digits(signature.data).ok()?;
    fallible_format!("({}, {data})", signature.owner).ok()
}

/// Returns the GUID of the type that has a name, and whether the type is that of SHA-256.
pub(crate) fn signature_type(name: &str) -> Option<String> {
    let signature_type = match name {
        "SHA1" => SignatureType::SHA1,
        "SHA224" => SignatureType::SHA224,
        "SHA256" => SignatureType::SHA256,
        "SHA384" => SignatureType::SHA384,
        "SHA512" => SignatureType::SHA512,
        "RSA2048" => SignatureType::RSA2048,
        "RSA2048_SHA1" => SignatureType::RSA2048_SHA1,
        "RSA2048_SHA256" => SignatureType::RSA2048_SHA256,
        "X509" => SignatureType::X509,
        "X509_SHA256" => SignatureType::X509_SHA256,
        "X509_SHA384" => SignatureType::X509_SHA384,
        "X509_SHA512" => SignatureType::X509_SHA512,
        _ => return None,
    };
    let is_sha256 = signature_type == SignatureType::SHA256;
    let guid = signature_type.0;
    fallible_format!("({guid}, {is_sha256})").ok()
}
