// @generated from proved source. It is not edited.

use crate::uefi_audits::verify::coverage::Coverage;
use crate::uefi_audits::verify::covered::covered_pcrs;
use crate::uefi_audits::verify::held::HeldPcr;
use crate::uefi_audits::verify::missing::missing_pcrs;
use crate::uefi_audits::verify::named::named_pcrs;
use crate::uefi_audits::verify::quote::{QuoteVerdict, ReceivedQuote};
use crate::uefi_audits::verify::selection::{PcrSelection, selected_pcrs};
use crate::uefi_audits::verify::verdict::Verdict;
use crate::support::alloc::AllocError;
use uefi_formats::proto::tcg::LogEntry;

/// The PCRs of a TPM beside those that the events of a log lead to.
#[derive(Debug)]
pub struct ComparedPcrs {
    /// The PCRs that are selected.
    pub held: Vec<HeldPcr>,
    /// The verdict on them.
    pub verdict: Verdict,
    /// Of which PCRs it speaks.
    pub coverage: Coverage,
}

impl ComparedPcrs {
    /// Compares those of the stated PCRs that are selected with what these events lead to, as
    /// [`Verdict::new`].
    ///
    /// # Errors
    ///
    /// [`AllocError`] if an allocation fails.
    pub fn new(
        entries: &[LogEntry<'_>],
        stated: &[HeldPcr],
        selections: &[PcrSelection],
        locality: Option<u8>,
    ) -> Result<ComparedPcrs, AllocError> {
        let held = selected_pcrs(stated, selections)?;
        let verdict = Verdict::new(entries, held.as_slice(), locality)?;
        let covered = named_pcrs(held.as_slice())?;
        let named = named_pcrs(stated)?;
        let missing = missing_pcrs(named.as_slice(), selections)?;
        let coverage = Coverage::new(entries, covered, missing)?;
        Ok(ComparedPcrs {
            held,
            verdict,
            coverage,
        })
    }
}

impl ComparedPcrs {
    /// Returns whether all PCRs agree, and all that are asked for are among them.
    pub fn agrees(&self) -> bool {
        self.verdict.is_agreement() && self.coverage.is_whole()
    }
}

/// A quote beside what the events of a log lead to.
#[derive(Debug)]
pub struct ComparedQuote<'a> {
    /// The verdict on it.
    pub verdict: QuoteVerdict<'a>,
    /// Of which PCRs it speaks.
    pub coverage: Coverage,
}

impl<'a> ComparedQuote<'a> {
    /// Compares a quote with what these events lead to, as [`QuoteVerdict::new`]. The selections say
    /// which PCRs it has to cover.
    ///
    /// # Errors
    ///
    /// [`AllocError`] if an allocation fails.
    pub fn new(
        entries: &[LogEntry<'_>],
        received: &ReceivedQuote<'a>,
        selections: &[PcrSelection],
        locality: Option<u8>,
    ) -> Result<ComparedQuote<'a>, AllocError> {
        let verdict = QuoteVerdict::new(entries, received, locality)?;
        let covered = covered_pcrs(&received.quote)?;
        let missing = missing_pcrs(covered.as_slice(), selections)?;
        let coverage = Coverage::new(entries, covered, missing)?;
        Ok(ComparedQuote { verdict, coverage })
    }
}

impl ComparedQuote<'_> {
    /// Returns whether the digests agree, the quote has its nonce, and all PCRs that are asked for are
    /// covered.
    pub fn agrees(&self) -> bool {
        self.verdict.agrees() && self.coverage.is_whole()
    }
}
