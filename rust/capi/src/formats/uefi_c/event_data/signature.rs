// @generated from proved source. It is not edited.

use core::mem::MaybeUninit;
use crate::bytes::Bytes;

use crate::formats::uefi_c::cursor::bytes_from;
use crate::formats::uefi_c::status::{self, UefiStatus};
use crate::formats::tcg_event::{SignatureData, SignatureList, SignatureLists};
use crate::formats::uefi_base::little_endian::u32_at;

/// The offset of the length in a list, and the length of the fields before a list's own header.
const LIST_SIZE_OFFSET: usize = 16;

const FIELDS_LENGTH: usize = 28;

/// The length of the owner in a signature.
const OWNER_LENGTH: u32 = 16;

/// A list of signatures of one type (UEFI 2.10, 32.4.1, `EFI_SIGNATURE_LIST`).
#[derive(Clone, Copy, Debug)]
#[repr(C)]
pub struct UefiSignatureList<'a> {
    /// The list's own header, whose meaning the type says.
    pub header: Bytes<'a>,
    /// The bytes of the signatures.
    pub signatures: Bytes<'a>,
    /// The size of each signature in bytes, with the sixteen of its owner.
    pub signature_size: u32,
    /// The GUID of the type.
    pub signature_type: [u8; 16],
}

/// A signature (UEFI 2.10, 32.4.1, `EFI_SIGNATURE_DATA`).
#[derive(Clone, Copy, Debug)]
#[repr(C)]
pub struct UefiSignature<'a> {
    /// The data: a hash or a certificate, as the type of the list says.
    pub value: Bytes<'a>,
    /// The GUID of the owner.
    pub owner: [u8; 16],
}

/// Reads the list at the offset of a signature database, and moves the offset to its end.
#[unsafe(no_mangle)]
pub extern "C" fn uefi_signature_list_next<'a>(
    lists: Bytes<'a>,
    offset: &mut usize,
    out: &mut MaybeUninit<UefiSignatureList<'a>>,
) -> UefiStatus {
    let lists = lists.as_slice();
    let Some((list, end)) = list_at(lists, *offset) else {
        return if *offset < lists.len() {
            status::BAD_SIGNATURE_LIST
        } else {
            status::END
        };
    };
    out.write(list);
    *offset = end;
    status::OK
}

/// Returns the list at the offset, and the offset of its end.
#[inline]
fn list_at(lists: &[u8], offset: usize) -> Option<(UefiSignatureList<'_>, usize)> {
    let rest = bytes_from(lists, offset)?;
    let (list, bytes) = first_list(rest)?;
    let end = offset + bytes.len();
    Some((seen(bytes, &list), end))
}

/// Returns the list that the bytes begin with, and its bytes.
#[inline]
fn first_list(bytes: &[u8]) -> Option<(SignatureList<'_>, &[u8])> {
    let part = stated_part(bytes)?;
    let list = SignatureLists::read(part)?.iter().next()?;
    Some((list, part))
}

/// Returns as many of the bytes as a list that they begin with is stated to have.
#[inline]
fn stated_part(bytes: &[u8]) -> Option<&[u8]> {
    if bytes.len() < FIELDS_LENGTH {
        return None;
    }
    let size = u32_at(bytes, LIST_SIZE_OFFSET) as usize;
    let (part, _) = bytes.split_at_checked(size)?;
    Some(part)
}

/// Returns the parts of the list that the bytes are.
#[inline]
fn seen<'a>(bytes: &'a [u8], list: &SignatureList<'a>) -> UefiSignatureList<'a> {
    let header = list.header();
    let (_, body) = bytes.split_at(FIELDS_LENGTH);
    let (_, signatures) = body.split_at(header.len());
    let signature_type = list.signature_type().0.0;
    UefiSignatureList {
        header: Bytes::new(header),
        signatures: Bytes::new(signatures),
        signature_size: list.signature_size(),
        signature_type,
    }
}

/// Reads the signature that the bytes are: the value of a variable that was measured as an authority.
#[unsafe(no_mangle)]
pub extern "C" fn uefi_signature<'a>(bytes: Bytes<'a>, out: &mut MaybeUninit<UefiSignature<'a>>) -> UefiStatus {
    let bytes = bytes.as_slice();
    let Some(signature) = SignatureData::read(bytes) else {
        return status::OTHER_DATA;
    };
    out.write(UefiSignature {
        value: Bytes::new(signature.data),
        owner: signature.owner.0,
    });
    status::OK
}

/// Reads the signature of a size at the offset of a list's signatures, and moves the offset to its
/// end. The size is tested first: one that has no room for the owner is bad also at the end.
#[unsafe(no_mangle)]
pub extern "C" fn uefi_signature_next<'a>(
    signatures: Bytes<'a>,
    signature_size: u32,
    offset: &mut usize,
    out: &mut MaybeUninit<UefiSignature<'a>>,
) -> UefiStatus {
    let signatures = signatures.as_slice();
    let Some(signature) = signature_at(signatures, signature_size as usize, *offset) else {
        return no_signature(signatures.len(), signature_size, *offset);
    };
    out.write(UefiSignature {
        value: Bytes::new(signature.data),
        owner: signature.owner.0,
    });
    *offset += signature_size as usize;
    status::OK
}

/// Returns why no signature of a size is at the offset in this many bytes.
#[inline]
fn no_signature(length: usize, size: u32, offset: usize) -> UefiStatus {
    if size < OWNER_LENGTH {
        return status::BAD_SIGNATURE_SIZE;
    }
    if offset < length {
        status::CUT
    } else {
        status::END
    }
}

/// Returns the signature of a size at the offset.
#[inline]
fn signature_at(signatures: &[u8], size: usize, offset: usize) -> Option<SignatureData<'_>> {
    let (bytes, _) = bytes_from(signatures, offset)?.split_at_checked(size)?;
    SignatureData::read(bytes)
}
