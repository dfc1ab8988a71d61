// @generated from proved source. It is not edited.

use crate::host::rt::{Eprint, Input};
use crate::support::fallible::*;

use crate::uefi_audit::file_name::FileName;
use crate::file_input::{MAX_READS, STANDARD_INPUT, read_file};
use uefi_formats::pcr::{Bank, PCR_COUNT};
use crate::shown::ShownName;
use crate::support::alloc::AllocError;
use crate::host::io::ErrorKind;
use crate::host::rt::Files;
use core::fmt;
use crate::host::fs;
use crate::uefi_audits::naming::bank_name;
use crate::uefi_audits::verify::{Held, HeldError, HeldPcr, held_in_file, held_in_text};

/// Returns the bytes of a file, of standard input if its name is `-`; `None` if it wasn't read, which
/// standard error is told.
pub(crate) fn file_bytes<R: Files + Input + Eprint>(
    rt: &R,
    name: FileName<'_>,
) -> Option<Vec<u8>> {
    bytes_at(rt, path_named(rt, name)?)
}

/// Returns the path that a name is; `None` if it isn't UTF-8, which standard error is told.
fn path_named<'a, R: Eprint>(rt: &R, name: FileName<'a>) -> Option<&'a str> {
    match name {
        FileName::Text(path) => Some(path),
        FileName::NotUtf8(shown) => {
            let _ = fallible_eprintln!(rt, "uefi_audit: {shown}: the name isn't UTF-8");
            None
        }
    }
}

/// Returns the bytes of the file at a path, as [`file_bytes`].
fn bytes_at<R: Files + Input + Eprint>(rt: &R, path: &str) -> Option<Vec<u8>> {
    let file = if path == "-" { STANDARD_INPUT } else { path };
    match read_file(rt, file, MAX_READS) {
        Ok(bytes) => Some(bytes),
        Err(error) => {
            let name = ShownName(path);
            // If standard error is closed, the exit status still tells.
            let _ = fallible_eprintln!(rt, "uefi_audit: {name}: {error}");
            None
        }
    }
}

/// Returns the PCRs of a TPM in a file that `tpm2_pcrread` printed or as TPM 1.2 has it, or in a
/// folder as Linux has it; `None` if there are none to be read, which standard error is told.
pub(crate) fn held_pcrs<R: Files + Input + Eprint>(
    rt: &R,
    name: FileName<'_>,
) -> Option<Vec<HeldPcr>> {
    let path = path_named(rt, name)?;
    let held = match fs::metadata(rt, path) {
        Ok(found) if found.is_dir() => held_in_folder(rt, path)?,
        _ => held_in_listing(rt, path)?,
    };
    if held.is_empty() {
        let name = ShownName(path);
        let _ = fallible_eprintln!(rt, "uefi_audit: {name}: there are no PCRs that can be compared");
        return None;
    }
    Some(held)
}

/// Returns the PCRs in a file, and tells standard error which banks of it aren't supported.
fn held_in_listing<R: Files + Input + Eprint>(
    rt: &R,
    path: &str,
) -> Option<Vec<HeldPcr>> {
    let bytes = bytes_at(rt, path)?;
    match held_in_text(bytes.as_slice()) {
        Ok(held) => {
            let Held { pcrs, unsupported } = held;
            tell_unsupported(rt, path, unsupported);
            Some(pcrs)
        }
        Err(error) => {
            tell_held(rt, path, error);
            None
        }
    }
}

/// Tells on standard error which banks aren't supported, each once.
fn tell_unsupported<R: Eprint>(rt: &R, path: &str, mut names: Vec<&str>) {
    if names.fallible_sort().is_err() {
        return;
    }
    names.dedup();
    let path = ShownName(path);
    for name in &names {
        let name = ShownName(name);
        let _ = fallible_eprintln!(rt, "{path}: the bank {name} isn't supported");
    }
}

/// Tells on standard error why a file has no PCRs that can be compared.
fn tell_held<R: Eprint>(rt: &R, path: &str, error: HeldError) {
    let (name, fault) = (ShownName(path), HeldFault(error));
    let _ = fallible_eprintln!(rt, "uefi_audit: {name}: {fault}");
}

/// Why a file has no PCRs that can be compared, displayed as standard error is told it.
#[derive(Clone, Copy, Debug)]
struct HeldFault(HeldError);

impl fmt::Display for HeldFault {
    fn fmt(&self, f: &mut fmt::Formatter<'_>) -> fmt::Result {
        match self.0 {
            HeldError::Memory => write!(f, "out of memory"),
            HeldError::Line(offset) => write!(
                f,
                "the line at offset {offset} states no PCR, or one that a line before it states"
            ),
        }
    }
}

/// Returns the PCRs of which the folder has a file, as `pcr-sha256/0`.
fn held_in_folder<R: Files + Input + Eprint>(
    rt: &R,
    path: &str,
) -> Option<Vec<HeldPcr>> {
    let mut held = Vec::new();
    for bank in Bank::ALL {
        for pcr in 0..PCR_COUNT as u32 {
            if let Some(found) = held_in_bank(rt, path, bank, pcr)? {
                if held.fallible_push(found).is_err() {
                    tell_held(rt, path, HeldError::Memory);
                    return None;
                }
            }
        }
    }
    Some(held)
}

/// Returns the PCR of a bank, if the folder has a file for it.
fn held_in_bank<R: Files + Input + Eprint>(
    rt: &R,
    folder: &str,
    bank: Bank,
    pcr: u32,
) -> Option<Option<HeldPcr>> {
    let Ok(path) = pcr_path(folder, bank, pcr) else {
        tell_held(rt, folder, HeldError::Memory);
        return None;
    };
    match fs::metadata(rt, path.as_str()) {
        Err(error) if error.kind() == ErrorKind::NotFound => return Some(None),
        _ => {}
    }
    let bytes = bytes_at(rt, path.as_str())?;
    match held_in_file(bank, bytes.as_slice()) {
        Ok(value) => Some(Some(HeldPcr { bank, pcr, value })),
        Err(error) => {
            tell_held(rt, path.as_str(), error);
            None
        }
    }
}

/// Returns the path of a PCR's file in the folder, as `pcr-sha256/0`.
fn pcr_path(folder: &str, bank: Bank, pcr: u32) -> Result<String, AllocError> {
    let name = bank_name(bank);
    fallible_format!("{folder}/pcr-{name}/{pcr}")
}
