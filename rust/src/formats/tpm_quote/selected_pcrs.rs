// @generated from proved source. It is not edited.

use crate::formats::tpm_quote::pcr_selection::PcrSelection;
use core::iter::FusedIterator;
use crate::formats::uefi_tcg::PcrIndex;

/// How many PCRs a PC has.
const PCR_COUNT: u32 = 24;

/// An iterator over the PCRs that are selected, ascending.
///
/// After the last PCR the iterator returns `None` forever.
#[derive(Clone, Copy, Debug)]
pub struct SelectedPcrs<'a> {
    selection: PcrSelection<'a>,
    next: u32,
}

impl<'a> SelectedPcrs<'a> {
    /// Returns an iterator over the PCRs of the selection.
    #[inline]
    pub(crate) fn new(selection: PcrSelection<'a>) -> SelectedPcrs<'a> {
        SelectedPcrs { selection, next: 0 }
    }
}

impl<'a> Iterator for SelectedPcrs<'a> {
    type Item = PcrIndex;

    #[inline]
    fn next(&mut self) -> Option<PcrIndex> {
        while self.next < PCR_COUNT {
            let pcr = PcrIndex(self.next);
            self.next += 1;
            if self.selection.contains(pcr) {
                return Some(pcr);
            }
        }
        None
    }
}

impl<'a> FusedIterator for SelectedPcrs<'a> {}
