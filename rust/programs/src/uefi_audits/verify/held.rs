// @generated from proved source. It is not edited.

use uefi_formats::pcr::{Bank, PcrValue};
use crate::support::alloc::AllocError;

/// A PCR that a TPM held.
#[derive(Clone, Copy, Debug)]
pub struct HeldPcr {
    /// Its bank.
    pub bank: Bank,
    /// Its number.
    pub pcr: u32,
    /// What it held.
    pub value: PcrValue,
}

/// What a text states of the PCRs that a TPM held.
#[derive(Debug)]
pub struct Held<'a> {
    /// The PCRs, in the order of their lines. None of them is stated twice.
    pub pcrs: Vec<HeldPcr>,
    /// The names of the banks that can't be replayed, whose PCRs aren't among them.
    pub unsupported: Vec<&'a str>,
}

/// Why no PCRs were read from a text.
#[derive(Clone, Copy, PartialEq, Eq, Debug)]
pub enum HeldError {
    /// An allocation failed.
    Memory,
    /// The line that begins at this offset isn't one of a text of PCRs, states a PCR that a line
    /// before it states, or doesn't end.
    Line(usize),
}

impl From<AllocError> for HeldError {
    fn from(_error: AllocError) -> HeldError {
        HeldError::Memory
    }
}

/// The bank of which the lines of a text state PCRs.
#[derive(Clone, Copy, Debug)]
pub(crate) enum Section {
    /// None: no bank has begun.
    Before,
    /// One that can be replayed.
    Replayed(Bank),
    /// Another, whose PCRs are passed over.
    Unsupported,
}
