// @generated from proved source. It is not edited.

use crate::uefi_audits::verify::named::NamedPcr;
use crate::uefi_audits::verify::uncompared::uncompared_pcrs;
use crate::support::alloc::AllocError;
use uefi_formats::proto::tcg::LogEntry;

/// Of which PCRs a verdict speaks, and of which it doesn't.
#[derive(Debug)]
pub struct Coverage {
    /// The PCRs that are compared, or that a quote covers.
    pub covered: Vec<NamedPcr>,
    /// Those that are asked for, and aren't stated or covered.
    pub missing: Vec<NamedPcr>,
    /// Those that events extend, and that aren't covered in any bank.
    pub extended: Vec<u32>,
}

impl Coverage {
    /// Returns of which PCRs a verdict on these events speaks, by those that are covered and those that
    /// are missing.
    ///
    /// # Errors
    ///
    /// [`AllocError`] if an allocation fails.
    pub fn new(
        entries: &[LogEntry<'_>],
        covered: Vec<NamedPcr>,
        missing: Vec<NamedPcr>,
    ) -> Result<Coverage, AllocError> {
        let extended = uncompared_pcrs(entries, covered.as_slice())?;
        Ok(Coverage {
            covered,
            missing,
            extended,
        })
    }
}

impl Coverage {
    /// Returns whether a PCR is covered, and none that is asked for is missing.
    pub fn is_whole(&self) -> bool {
        !self.covered.is_empty() && self.missing.is_empty()
    }
}
