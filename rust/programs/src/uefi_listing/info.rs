// @generated from proved source. It is not edited.

//! What `info` lists of bytes, and what it refuses.

use crate::uefi_listing::listing::Outcome;
use crate::shown::{Hex, HexName, HexNumber};
use crate::support::alloc::AllocError;
use core::fmt;
use uefi_formats::Error;
use uefi_formats::proto::media::file::FileInfo;
use uefi_formats::runtime::Time;

/// Appends the lines of a file information record: `size`, `file` and `physical` with sizes in
/// bytes in decimal; `created`, `accessed` and `modified` with the sixteen bytes of a time in hex;
/// `attribute` with `0x` and the bits in hex; last `name` with four hex digits for each unit of the
/// name but the NUL that ends it.
///
/// # Errors
///
/// [`AllocError`] if an allocation fails. The text may have grown then.
pub fn push_info(text: &mut String, info: &FileInfo<'_>) -> Result<(), AllocError> {
    let (size, file, physical) = (info.size(), info.file_size(), info.physical_size());
    let (created, accessed) = (Stamp(info.create_time()), Stamp(info.last_access_time()));
    let modified = Stamp(info.modification_time());
    let attribute = HexNumber(info.attribute().bits());
    let name = HexName(info.file_name());
    fallible_writeln!(text,
        "size {size}\nfile {file}\nphysical {physical}\n\
         created {created}\naccessed {accessed}\nmodified {modified}\n\
         attribute {attribute}\nname{name}"
    )
}

/// A time, displayed as its sixteen bytes in hex.
#[derive(Clone, Copy, Debug)]
struct Stamp(Time);

impl fmt::Display for Stamp {
    fn fmt(&self, f: &mut fmt::Formatter<'_>) -> fmt::Result {
        let bytes = self.0.to_bytes();
        let bytes = Hex(&bytes);
        write!(f, "{bytes}")
    }
}

/// Appends the listing of the file information record in the first `written` bytes.
///
/// # Errors
///
/// [`AllocError`] if an allocation fails. The text may have grown then.
pub(crate) fn push_info_listing(
    text: &mut String,
    bytes: &[u8],
    written: usize,
) -> Result<Outcome, AllocError> {
    match FileInfo::from_uefi(bytes, written) {
        Ok(info) => {
            push_info(text, &info)?;
            Ok(Outcome::Listed)
        }
        Err(error) => {
            push_refusal(text, &error)?;
            Ok(Outcome::Refused)
        }
    }
}

/// Appends the line of a refusal.
fn push_refusal(
    text: &mut String,
    error: &Error<Option<usize>>,
) -> Result<(), AllocError> {
    match *error.data() {
        Some(size) => fallible_writeln!(text, "refused BUFFER_TOO_SMALL({size})"),
        None => fallible_writeln!(text, "refused BAD_BUFFER_SIZE"),
    }
}
