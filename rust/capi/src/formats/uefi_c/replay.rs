// @generated from proved source. It is not edited.

use core::mem::MaybeUninit;
use crate::bytes::{Bytes, workspace_in};

use crate::formats::uefi_c::last_entry::log_of;
use crate::formats::uefi_c::status::{self, UefiStatus};
use crate::formats::uefi_c::workspace::{UefiBank, UefiWorkspace};
use crate::formats::pcr_replay::{
    Bank, BankStore, Fault, PCR_COUNT, PcrValue, Start, Undetermined, is_active, replay_into,
    startup_locality,
};
use crate::formats::uefi_tcg::{AlgorithmId, Log, PcrIndex};

/// The most bytes that a PCR has.
pub(crate) const ROOM: usize = 64;

/// What a PCR holds after the events of a log: a value, or the first event by which it is
/// undetermined.
#[derive(Clone, Copy, Debug)]
#[repr(C)]
pub struct UefiPcr {
    /// The length of the value in bytes; without meaning if the PCR is undetermined.
    pub size: usize,
    /// The index of the event in the log, 0 for the first one; without meaning with a value.
    pub index: usize,
    /// The offset at which that event starts; without meaning with a value.
    pub offset: usize,
    /// Success with a value, else why the PCR is undetermined.
    pub status: UefiStatus,
    /// The value, in the first bytes.
    pub value: [u8; ROOM],
}

/// Replays a log: writes what each of the 24 PCRs of a bank holds after the log's events.
///
/// The bank is that of an algorithm's number; without a hash function for it the call says so. A
/// locality below 256 is that at which the TPM was started; else the log says it.
#[unsafe(no_mangle)]
pub extern "C" fn uefi_replay(
    log: Bytes<'_>,
    last_entry: usize,
    algorithm: u16,
    locality: u32,
    workspace: &mut MaybeUninit<UefiWorkspace>,
    out: &mut MaybeUninit<[UefiPcr; PCR_COUNT]>,
) -> UefiStatus {
    let log = log.as_slice();
    let workspace = workspace_in(workspace);
    let Some(bank) = Bank::of(AlgorithmId(algorithm)) else {
        return status::NO_HASH;
    };
    let log = log_of(log, last_entry);
    replay_at(&mut workspace.banks[0], &log, bank, locality);
    out.write(workspace.banks[0].pcrs);
    status::OK
}

/// Replays a log for one PCR, and returns its status. It takes as long as for all. Without a hash
/// function for the algorithm, and for a PCR above 23, nothing is written.
#[unsafe(no_mangle)]
pub extern "C" fn uefi_replay_pcr(
    log: Bytes<'_>,
    last_entry: usize,
    algorithm: u16,
    locality: u32,
    pcr_index: u32,
    workspace: &mut MaybeUninit<UefiWorkspace>,
    out: &mut MaybeUninit<UefiPcr>,
) -> UefiStatus {
    let log = log.as_slice();
    let workspace = workspace_in(workspace);
    let Some(bank) = Bank::of(AlgorithmId(algorithm)) else {
        return status::NO_HASH;
    };
    let log = log_of(log, last_entry);
    replay_at(&mut workspace.banks[0], &log, bank, locality);
    let Some(outcome) = workspace.banks[0].outcome(PcrIndex(pcr_index)) else {
        return status::NO_PCR;
    };
    let found = seen(&outcome);
    out.write(found);
    found.status
}

/// Finds the locality at which the TPM was started, as a log says: 4 with a hardware CRTM, else the
/// first that an event states.
#[unsafe(no_mangle)]
pub extern "C" fn uefi_startup_locality(log: Bytes<'_>, last_entry: usize, out: &mut MaybeUninit<u8>) -> UefiStatus {
    let log = log.as_slice();
    let Some(locality) = startup_locality(&log_of(log, last_entry)) else {
        return status::NO_LOCALITY;
    };
    out.write(locality);
    status::OK
}

/// Returns whether the bank of an algorithm is active: an event of the log that extends a PCR has a
/// digest of the algorithm. Without a hash function for the algorithm it returns false.
#[unsafe(no_mangle)]
pub extern "C" fn uefi_bank_is_active(log: Bytes<'_>, last_entry: usize, algorithm: u16) -> bool {
    let log = log.as_slice();
    match Bank::of(AlgorithmId(algorithm)) {
        Some(bank) => is_active(&log_of(log, last_entry), bank),
        None => false,
    }
}

/// Replays a log for a bank, in a TPM that was started at this locality if it is below 256, else as
/// the log says.
#[inline]
pub(crate) fn replay_at(held: &mut UefiBank, log: &Log<'_>, bank: Bank, locality: u32) {
    replay_into(held, log, bank, &start_of(log, locality));
}

/// Returns how PCR 0 starts: at this locality if it is below 256, else as the log says.
#[inline]
pub(crate) fn start_of(log: &Log<'_>, locality: u32) -> Start {
    if locality < 256 {
        Start::at(locality as u8)
    } else {
        Start::of(log)
    }
}

/// Returns what a PCR holds, as a caller sees it.
#[inline]
pub(crate) fn seen(outcome: &Result<PcrValue, Undetermined>) -> UefiPcr {
    let mut value = [0; ROOM];
    match outcome {
        Ok(held) => {
            let bytes = held.as_bytes();
            value[..bytes.len()].copy_from_slice(bytes);
            UefiPcr {
                size: bytes.len(),
                index: 0,
                offset: 0,
                status: status::OK,
                value,
            }
        }
        Err(at) => UefiPcr {
            size: 0,
            index: at.index,
            offset: at.offset,
            status: status_of(at.fault),
            value,
        },
    }
}

/// Returns the status of a fault.
#[inline]
pub(crate) fn status_of(fault: Fault) -> UefiStatus {
    match fault {
        Fault::NoDigest => status::NO_DIGEST,
        Fault::TwoDigests => status::TWO_DIGESTS,
        Fault::OtherLength => status::OTHER_LENGTH,
        Fault::UnknownLocality => status::UNKNOWN_LOCALITY,
        Fault::OtherLocality => status::OTHER_LOCALITY,
        Fault::LateLocality => status::LATE_LOCALITY,
    }
}
