//! `Debug` as it is derived in the proved source, in place of the short one: the tests compare what it prints.

use crate::formats::uefi_base::Guid;
use core::fmt::{self, Debug, Formatter};

/// How many characters are shown.
pub(crate) const SHOWN: usize = usize::MAX;

/// Bytes, as a list of numbers.
pub(crate) struct Bytes<'a>(pub(crate) &'a [u8]);

impl Debug for Bytes<'_> {
    fn fmt(&self, f: &mut Formatter<'_>) -> fmt::Result {
        self.0.fmt(f)
    }
}

/// A set of flags, as the number of its bits.
pub(crate) fn write_flags(f: &mut Formatter<'_>, set: &str, _flags: &[(&str, u64)], bits: u64) -> fmt::Result {
    write!(f, "{set}({bits})")
}

impl Debug for Guid {
    fn fmt(&self, f: &mut Formatter<'_>) -> fmt::Result {
        f.debug_tuple("Guid").field(&self.0).finish()
    }
}
