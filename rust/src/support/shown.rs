//! Short `Debug`: bytes in hex, GUIDs as text, flags by name.

use crate::formats::uefi_base::Guid;
use core::fmt::{self, Debug, Formatter, Write};

/// How many bytes or characters are shown.
pub(crate) const SHOWN: usize = 64;

/// Bytes in hex; of more than [`SHOWN`] the first, and how many there are.
pub(crate) struct Bytes<'a>(pub(crate) &'a [u8]);

impl Debug for Bytes<'_> {
    fn fmt(&self, f: &mut Formatter<'_>) -> fmt::Result {
        f.write_char('[')?;
        for byte in self.0.iter().take(SHOWN) {
            write!(f, "{byte:02x}")?;
        }
        if self.0.len() > SHOWN {
            write!(f, ".. of {} bytes", self.0.len())?;
        }
        f.write_char(']')
    }
}

/// A set of flags by their names, and in hex the bits without one.
pub(crate) fn write_flags(f: &mut Formatter<'_>, set: &str, flags: &[(&str, u64)], bits: u64) -> fmt::Result {
    write!(f, "{set}(")?;
    let (mut before, mut unnamed) = ("", bits);
    for &(name, flag) in flags {
        if bits & flag == flag {
            write!(f, "{before}{name}")?;
            before = " | ";
        }
        unnamed &= !flag;
    }
    if unnamed != 0 || before.is_empty() {
        write!(f, "{before}{unnamed:#x}")?;
    }
    f.write_char(')')
}

impl Debug for Guid {
    fn fmt(&self, f: &mut Formatter<'_>) -> fmt::Result {
        write!(f, "Guid({self})")
    }
}
