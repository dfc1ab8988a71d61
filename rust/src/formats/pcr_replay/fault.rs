// @generated from proved source. It is not edited.

use core::error::Error;
use core::fmt;

/// Why a PCR is undetermined after an event.
#[non_exhaustive]
#[derive(Clone, Copy, PartialEq, Eq, Debug)]
pub enum Fault {
    /// The event has no digest of the bank's algorithm.
    NoDigest,
    /// It has two digests of the bank's algorithm or more.
    TwoDigests,
    /// Its digest hasn't the length that the bank's digests have.
    OtherLength,
    /// It states a locality at which no TPM is started: not 0, 3 or 4.
    UnknownLocality,
    /// It states another locality than an event before it, or than the 4 of a hardware CRTM.
    OtherLocality,
    /// It states the locality after PCR 0 was extended, other than by a hardware CRTM.
    LateLocality,
}

/// Writes what is wrong with the event, such as `has no digest of the bank`.
impl fmt::Display for Fault {
    fn fmt(&self, f: &mut fmt::Formatter<'_>) -> fmt::Result {
        f.write_str(match self {
            Fault::NoDigest => "has no digest of the bank",
            Fault::TwoDigests => "has two digests of the bank or more",
            Fault::OtherLength => "has a digest of another length",
            Fault::UnknownLocality => "states a locality other than 0, 3 and 4",
            Fault::OtherLocality => "states another locality than PCR 0 starts at",
            Fault::LateLocality => "states the locality after PCR 0 was extended",
        })
    }
}

/// The first event by which a PCR is undetermined.
#[non_exhaustive]
#[derive(Clone, Copy, PartialEq, Eq, Debug)]
pub struct Undetermined {
    /// The event's index in the log: 0 for the first one.
    pub index: usize,
    /// The offset at which it starts.
    pub offset: usize,
    /// What is wrong with it.
    pub fault: Fault,
}

/// Writes the event and what is wrong with it, such as
/// `event 3 at offset 675 has no digest of the bank`.
impl fmt::Display for Undetermined {
    fn fmt(&self, f: &mut fmt::Formatter<'_>) -> fmt::Result {
        let (index, offset, fault) = (self.index, self.offset, self.fault);
        write!(f, "event {index} at offset {offset} {fault}")
    }
}

impl Error for Undetermined {}
