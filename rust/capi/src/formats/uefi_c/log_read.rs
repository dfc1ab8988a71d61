// @generated from proved source. It is not edited.

use core::mem::MaybeUninit;
use crate::bytes::Bytes;

use crate::formats::uefi_c::last_entry::last_entry_of;
use crate::formats::uefi_c::status::{self, UefiStatus};
use crate::formats::uefi_tcg::{Log, LogError};

/// Tests that a log is whole: its header has at most 256 algorithms, it has an event, and it ends
/// with its last one, as [`Log::read`] says.
///
/// If bytes are left over, an event is missing, cut or broken, and the offset is set to the end of
/// the events before it.
#[unsafe(no_mangle)]
pub extern "C" fn uefi_log_read(log: Bytes<'_>, last_entry: usize, offset: &mut MaybeUninit<usize>) -> UefiStatus {
    let log = log.as_slice();
    match Log::read(log, last_entry_of(log, last_entry)) {
        Ok(_log) => status::OK,
        Err(LogError::TooManyAlgorithms(_)) => status::TOO_MANY_ALGORITHMS,
        Err(LogError::Empty) => status::NO_EVENT,
        Err(LogError::LeftOver { offset: end }) => {
            offset.write(end);
            status::LEFT_OVER
        }
    }
}
