// @generated from proved source. It is not edited.

use crate::uefi_audits::known_start::KnownStart;
use crate::uefi_audits::replay::{replay_banks, restart_banks};
use crate::uefi_audits::verify::banks::held_banks;
use crate::uefi_audits::verify::comparison::{differs, disagreeing, is_undetermined};
use crate::uefi_audits::verify::held::HeldPcr;
use uefi_formats::pcr::BankPcrs;
use crate::support::alloc::AllocError;
use uefi_formats::proto::tcg::LogEntry;

/// Whether a log leads to the PCRs that a TPM held.
#[derive(Debug)]
pub struct Verdict {
    /// How PCR 0 starts.
    pub start: KnownStart,
    /// What the log leads to in the banks of which a PCR is held.
    pub replays: Vec<BankPcrs>,
    /// How many PCRs held another value, or aren't among those that a TPM has.
    pub differing: usize,
    /// How many are undetermined after the log.
    pub undetermined: usize,
}

impl Verdict {
    /// Returns the verdict on PCRs that a TPM held, after these events.
    ///
    /// PCR 0 starts at `locality`, or without one as the events say. If they say nothing, it starts at
    /// 0, 3 or 4: where the fewest PCRs disagree, and of several the first one.
    ///
    /// # Errors
    ///
    /// [`AllocError`] if an allocation fails.
    pub fn new(
        entries: &[LogEntry<'_>],
        held: &[HeldPcr],
        locality: Option<u8>,
    ) -> Result<Verdict, AllocError> {
        let start = KnownStart::of(entries, locality);
        if start.is_stated {
            return Verdict::at(entries, held, start);
        }
        let at_0 = Verdict::at(entries, held, KnownStart::assumed(0))?;
        let at_3 = at_0.restarted(entries, held, KnownStart::assumed(3))?;
        let at_4 = at_0.restarted(entries, held, KnownStart::assumed(4))?;
        Ok(at_0.nearer(at_3, held).nearer(at_4, held))
    }

    /// Returns the verdict in a TPM that was started so.
    fn at(
        entries: &[LogEntry<'_>],
        held: &[HeldPcr],
        start: KnownStart,
    ) -> Result<Verdict, AllocError> {
        let banks = held_banks(held)?;
        let replays = replay_banks(entries, banks.as_slice(), &start.start)?;
        Ok(Verdict::of(held, replays, start))
    }

    /// Returns the verdict in a TPM that was started so, by that in one that was started otherwise:
    /// PCR 0 alone is replayed.
    fn restarted(
        &self,
        entries: &[LogEntry<'_>],
        held: &[HeldPcr],
        start: KnownStart,
    ) -> Result<Verdict, AllocError> {
        let replays = restart_banks(entries, self.replays.as_slice(), &start.start)?;
        Ok(Verdict::of(held, replays, start))
    }
}

impl Verdict {
    /// Returns the verdict on PCRs that a TPM held, beside those that a log leads to.
    fn of(held: &[HeldPcr], replays: Vec<BankPcrs>, start: KnownStart) -> Verdict {
        let pcrs = replays.as_slice();
        let differing = held.iter().filter(|pcr| differs(pcr, pcrs)).count();
        let undetermined = held.iter().filter(|pcr| is_undetermined(pcr, pcrs)).count();
        Verdict {
            start,
            replays,
            differing,
            undetermined,
        }
    }

    /// Returns the one of two verdicts by which fewer PCRs disagree, and the first if as many do.
    fn nearer(self, other: Verdict, held: &[HeldPcr]) -> Verdict {
        if disagreeing(held, other.replays.as_slice())
            < disagreeing(held, self.replays.as_slice())
        {
            return other;
        }
        self
    }

    /// Returns whether all PCRs agree: none differs, and none is undetermined.
    pub fn is_agreement(&self) -> bool {
        self.differing == 0 && self.undetermined == 0
    }
}
