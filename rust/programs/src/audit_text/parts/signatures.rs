// @generated from proved source. It is not edited.

use crate::support::fallible::*;

use crate::audit_text::parts::part::{Part, PartValue, PartsResult, joined};
use crate::audit_text::words::signatures::{LONGEST_HASH, signature_type_name};
use crate::sha2::{Digest, Sha256};
use crate::support::alloc::AllocError;
use uefi_formats::proto::tcg::content::{
    SignatureData, SignatureList, SignatureLists, SignatureType,
};

/// Returns the lists of a signature database, in order.
pub(crate) fn lists_value<'a>(
    lists: &SignatureLists<'a>,
) -> Result<PartValue<'a>, AllocError> {
    let mut values = Vec::new();
    for list in lists.iter() {
        values.fallible_push(PartValue::Object(list_parts(&list)?))?;
    }
    Ok(PartValue::List(values))
}

/// Returns the parts of a list of signatures: what they are, its header, and the signatures.
fn list_parts<'a>(list: &SignatureList<'a>) -> PartsResult<'a> {
    let kind = kind_parts(list.signature_type())?;
    let mut signatures = Vec::new();
    for signature in list.iter() {
        signatures.fallible_push(PartValue::Object(signature_parts(&signature)?))?;
    }
    let others = fallible_vec![Part::words("\n"),
        Part::bytes("header", "  header", list.header()),
        Part::new("signatures", "", PartValue::List(signatures)),]?;
    joined(kind, others)
}

/// Returns the parts that say what the signatures of a list are.
fn kind_parts<'a>(kind: SignatureType) -> PartsResult<'a> {
    let guid = PartValue::Guid(kind.0);
    match signature_type_name(kind) {
        Some(name) => {
            let name = PartValue::Plain(String::fallible_from_str(name)?);
            Ok(fallible_vec![Part::in_json("type", guid),
                Part::in_block("  list of ", name),]?)
        }
        None => Ok(fallible_vec![Part::new("type", "  list of type ", guid)]?),
    }
}

/// Returns the parts of a signature: its owner, and its data, or their length and SHA-256.
pub(crate) fn signature_parts<'a>(signature: &SignatureData<'_>) -> PartsResult<'a> {
    let owner = Part::new(
        "owner",
        "  signature of owner ",
        PartValue::Guid(signature.owner),
    );
    if signature.data.len() <= LONGEST_HASH {
        let digits = crate::hex::encode(signature.data)?;
        return Ok(fallible_vec![owner,
            Part::new("data", ": ", PartValue::Plain(digits)),
            Part::words("\n"),]?);
    }
    let length = signature.data.len() as u64;
    let digest = Sha256::digest(signature.data);
    let digits = crate::hex::encode(digest.as_slice())?;
    Ok(fallible_vec![owner,
        Part::new("length", ": ", PartValue::Decimal(length)),
        Part::new("sha256", " bytes with SHA-256 ", PartValue::Plain(digits)),
        Part::words("\n"),]?)
}
