// @generated from proved source. It is not edited.

use core::mem::MaybeUninit;
use crate::bytes::workspace_in;

use crate::formats::uefi_c::log::UefiLog;
use crate::formats::uefi_c::replay::{UefiPcr, replay_at};
use crate::formats::uefi_c::status::{self, UefiStatus};
use crate::formats::uefi_c::workspace::UefiWorkspace;
use crate::formats::pcr_replay::{Bank, PCR_COUNT};
use crate::formats::uefi_tcg::{AlgorithmId, LastEntry, Log};

/// Replays a log: writes what each of the 24 PCRs of a bank holds after all its events, however far
/// the log was read. Of the log's fields only the bytes and the last entry are used.
///
/// The bank is that of an algorithm's number; without a hash function for it the call says so. A
/// locality below 256 is that at which the TPM was started; else the log says it.
#[unsafe(no_mangle)]
pub extern "C" fn uefi_log_replay(
    log: &UefiLog<'_>,
    algorithm: u16,
    locality: u32,
    workspace: &mut MaybeUninit<UefiWorkspace>,
    out: &mut MaybeUninit<[UefiPcr; PCR_COUNT]>,
) -> UefiStatus {
    let workspace = workspace_in(workspace);
    let bytes = log.bytes.as_slice();
    let Some(bank) = Bank::of(AlgorithmId(algorithm)) else {
        return status::NO_HASH;
    };
    let log = Log::new(bytes, LastEntry::At(log.last_entry));
    replay_at(&mut workspace.banks[0], &log, bank, locality);
    out.write(workspace.banks[0].pcrs);
    status::OK
}
