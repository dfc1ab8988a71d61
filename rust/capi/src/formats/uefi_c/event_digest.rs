// @generated from proved source. It is not edited.

use core::mem::MaybeUninit;
use crate::bytes::Bytes;

use crate::formats::uefi_c::log::UefiEvent;
use crate::formats::uefi_c::log2_fault::is_unknown;
use crate::formats::uefi_c::status::{self, UefiStatus};
use crate::formats::uefi_tcg::AlgorithmId;
use crate::formats::uefi_tcg::v2::AlgorithmDigestSizes;

/// The length of a SHA-1 digest.
const SHA1_LENGTH: usize = 20;

/// Reads the first digest of an algorithm in an event: in version 1 that of SHA-1, which is the only
/// one.
///
/// If there is none, it returns why. With fields that no log gave, these may be the reasons too: the
/// bytes cut a digest, one is of an algorithm that has no row, there are 2^32 rows or more, or the
/// version is neither 1 nor 2.
#[unsafe(no_mangle)]
pub extern "C" fn uefi_event_digest<'a>(
    event: &UefiEvent<'a>,
    algorithm: u16,
    out: &mut MaybeUninit<Bytes<'a>>,
) -> UefiStatus {
    let digests = event.digests.as_slice();
    let rows = event.rows.as_slice();
    match digest_in(digests, rows, event.version, algorithm) {
        Ok(digest) => {
            out.write(Bytes::new(digest));
            status::OK
        }
        Err(status) => status,
    }
}

/// Returns the digest of an algorithm in an event of this version, or the status that says why there
/// is none.
#[inline]
fn digest_in<'a>(
    digests: &'a [u8],
    rows: &[u8],
    version: u32,
    algorithm: u16,
) -> Result<&'a [u8], UefiStatus> {
    match version {
        1 => sha1_in(digests, algorithm),
        2 => first_in(digests, rows, algorithm),
        _ => Err(status::NO_EVENT),
    }
}

/// Returns the SHA-1 digest that the bytes are, if they are one, and the algorithm is SHA-1.
#[inline]
fn sha1_in(digest: &[u8], algorithm: u16) -> Result<&[u8], UefiStatus> {
    if digest.len() != SHA1_LENGTH {
        return Err(status::CUT);
    }
    if algorithm != AlgorithmId::SHA1.0 {
        return Err(status::NO_DIGEST);
    }
    Ok(digest)
}

/// Returns the first digest of an algorithm among those that the bytes encode under the table of
/// these rows.
#[inline]
fn first_in<'a>(digests: &'a [u8], rows: &[u8], algorithm: u16) -> Result<&'a [u8], UefiStatus> {
    match AlgorithmDigestSizes::from_rows(rows) {
        Some(sizes) => first_under(digests, &sizes, algorithm),
        None => Err(status::TOO_MANY_ALGORITHMS),
    }
}

/// Returns the first digest of an algorithm among those that the bytes encode under a table.
#[inline]
fn first_under<'a>(
    digests: &'a [u8],
    sizes: &AlgorithmDigestSizes<'_>,
    algorithm: u16,
) -> Result<&'a [u8], UefiStatus> {
    let mut rest = digests;
    while let Some(((id, digest), after)) = sizes.first_digest(rest) {
        if id.0 == algorithm {
            return Ok(digest);
        }
        rest = after;
    }
    Err(no_more(rest, sizes))
}

/// Returns why bytes begin with no digest under a table: there are none, or why they should begin
/// with one and don't.
#[inline]
fn no_more(bytes: &[u8], sizes: &AlgorithmDigestSizes<'_>) -> UefiStatus {
    if bytes.is_empty() {
        return status::NO_DIGEST;
    }
    if is_unknown(bytes, sizes) {
        status::UNKNOWN_ALGORITHM
    } else {
        status::CUT
    }
}
