// @generated from proved source. It is not edited.

use crate::formats::pcr_replay::bank::Bank;
use crate::formats::pcr_replay::entries::restarted;
use crate::formats::pcr_replay::pcrs::Pcrs;
use crate::formats::pcr_replay::start::Start;
use crate::formats::uefi_tcg::LogEntry;

/// What each PCR of a bank holds after the events of a log.
#[derive(Clone, Copy, Debug)]
pub struct BankPcrs {
    /// The bank.
    pub bank: Bank,
    /// What its PCRs hold.
    pub pcrs: Pcrs,
}

impl BankPcrs {
    /// Returns whether one of the PCRs is undetermined.
    #[must_use]
    #[inline]
    pub fn has_undetermined(&self) -> bool {
        self.pcrs.outcomes().iter().any(|outcome| outcome.is_err())
    }

    /// Returns what these events leave in the PCRs of the bank in a TPM that was started so, by what
    /// they leave in one that was started otherwise: PCR 0 alone is replayed.
    #[must_use]
    #[inline]
    pub fn restarted(&self, entries: &[LogEntry<'_>], start: &Start) -> BankPcrs {
        BankPcrs {
            bank: self.bank,
            pcrs: restarted(&self.pcrs, entries, self.bank, start),
        }
    }
}
