// @generated from proved source. It is not edited.

use crate::formats::pcr_replay::bank::Bank;
use crate::formats::pcr_replay::bank_pcrs::BankPcrs;
use crate::formats::pcr_replay::fault::Undetermined;
use crate::formats::pcr_replay::value::PcrValue;
use crate::formats::uefi_tcg::PcrIndex;

/// Memory that keeps what each PCR of a bank holds: a [`BankPcrs`], or memory of a caller's.
pub(crate) trait BankStore {
    /// Returns the bank.
    fn bank(&self) -> Bank;

    /// Returns what a PCR holds, or the event by which it is undetermined; `None` for a PCR above
    /// 23.
    fn outcome(&self, pcr: PcrIndex) -> Option<Result<PcrValue, Undetermined>>;

    /// Sets the bank.
    fn set_bank(&mut self, bank: Bank);

    /// Sets what a PCR holds.
    fn set_outcome(&mut self, pcr: PcrIndex, outcome: Result<PcrValue, Undetermined>);
}

impl BankStore for BankPcrs {
    #[inline]
    fn bank(&self) -> Bank {
        self.bank
    }

    #[inline]
    fn outcome(&self, pcr: PcrIndex) -> Option<Result<PcrValue, Undetermined>> {
        self.pcrs.outcome(pcr).copied()
    }

    #[inline]
    fn set_bank(&mut self, bank: Bank) {
        self.bank = bank;
    }

    #[inline]
    fn set_outcome(&mut self, pcr: PcrIndex, outcome: Result<PcrValue, Undetermined>) {
        self.pcrs.set_outcome(pcr, outcome);
    }
}
