// @generated from proved source. It is not edited.

use core::mem::MaybeUninit;
use crate::bytes::Bytes;

use crate::formats::uefi_c::log2::event_at;
use crate::formats::uefi_c::status::{self, UefiStatus};
use crate::formats::uefi_tcg::AlgorithmId;

/// Reads the first digest of an algorithm in the event under the table of these rows that starts at
/// the offset and keeps to the last entry. Under a table of 2^32 rows or more there is none.
#[unsafe(no_mangle)]
pub extern "C" fn uefi_log2_digest<'a>(
    log: Bytes<'a>,
    last_entry: usize,
    rows: Bytes<'a>,
    offset: usize,
    algorithm: u16,
    out: &mut MaybeUninit<Bytes<'a>>,
) -> UefiStatus {
    let log = log.as_slice();
    let rows = rows.as_slice();
    let Some(event) = event_at(log, last_entry, rows, offset) else {
        return status::NO_EVENT;
    };
    let Some(digest) = event.digest(AlgorithmId(algorithm)) else {
        return status::NO_DIGEST;
    };
    out.write(Bytes::new(digest));
    status::OK
}
