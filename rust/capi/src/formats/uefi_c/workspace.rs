// @generated from proved source. It is not edited.

use crate::formats::uefi_c::replay::{ROOM, UefiPcr, seen};
use crate::formats::uefi_c::status;
use crate::formats::pcr_replay::{Bank, BankStore, Fault, PCR_COUNT, PcrValue, Undetermined};
use core::mem::size_of;
use crate::formats::uefi_tcg::{AlgorithmId, PcrIndex};

/// How many banks can be replayed.
pub(crate) const BANK_COUNT: usize = 5;

/// How many bytes the header gives a workspace.
const WORKSPACE_SIZE: usize = 12288;

/// Memory in which a call replays a log, so that it takes little of the stack. Its contents have no
/// meaning before a call and after it.
#[derive(Clone, Copy, Debug)]
#[repr(C)]
pub struct UefiWorkspace {
    pub(crate) banks: [UefiBank; BANK_COUNT],
}

const _: () = assert!(size_of::<UefiWorkspace>() <= WORKSPACE_SIZE);

/// What the PCRs of a bank hold.
#[derive(Clone, Copy, Debug)]
#[repr(C)]
pub struct UefiBank {
    /// What each PCR holds.
    pub(crate) pcrs: [UefiPcr; PCR_COUNT],
    /// The algorithm of the bank.
    algorithm: u16,
}

impl BankStore for UefiBank {
    #[inline]
    fn bank(&self) -> Bank {
        match Bank::of(AlgorithmId(self.algorithm)) {
            Some(bank) => bank,
            None => Bank::Sha1,
        }
    }

    #[inline]
    fn outcome(&self, pcr: PcrIndex) -> Option<Result<PcrValue, Undetermined>> {
        let held = self.pcrs.get(pcr.0 as usize)?;
        Some(outcome_in(held))
    }

    #[inline]
    fn set_bank(&mut self, bank: Bank) {
        self.algorithm = bank.algorithm().0;
    }

    #[inline]
    fn set_outcome(&mut self, pcr: PcrIndex, outcome: Result<PcrValue, Undetermined>) {
        self.pcrs[pcr.0 as usize] = seen(&outcome);
    }
}

/// Returns what a PCR holds.
#[inline]
fn outcome_in(held: &UefiPcr) -> Result<PcrValue, Undetermined> {
    if held.status == status::OK {
        let size = held.size.min(ROOM);
        return Ok(PcrValue::new(&held.value[..size]));
    }
    Err(Undetermined {
        index: held.index,
        offset: held.offset,
        fault: fault_in(held),
    })
}

/// Returns why a PCR is undetermined.
#[inline]
fn fault_in(held: &UefiPcr) -> Fault {
    match held.status {
        status::NO_DIGEST => Fault::NoDigest,
        status::TWO_DIGESTS => Fault::TwoDigests,
        status::OTHER_LENGTH => Fault::OtherLength,
        status::UNKNOWN_LOCALITY => Fault::UnknownLocality,
        status::OTHER_LOCALITY => Fault::OtherLocality,
        _ => Fault::LateLocality,
    }
}
