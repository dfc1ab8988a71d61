// @generated from proved source. It is not edited.

use crate::host::rt::Input;
use crate::support::fallible::*;

use crate::uefi_boot::failure::Failure;
use crate::boot_listing::variables::{BootVariable, VariableFile};
use crate::file_input::{MAX_READS, read_file};
use crate::host::fs;
use crate::host::fs::DirEntry;
use crate::host::rt::Files;

/// Returns the files of a folder that are variables of the boot manager.
pub(crate) fn read_folder<R: Files + Input + Clone>(
    rt: &R,
    folder: &str,
) -> Result<Vec<VariableFile>, Failure> {
    let mut files = Vec::new();
    let entries = match fs::read_dir(rt, folder) {
        Ok(entries) => entries,
        Err(error) => return Err(Failure::of_folder(folder, error)),
    };
    for entry in entries {
        match entry {
            Ok(entry) => push_variable(rt, &mut files, &entry)?,
            Err(error) => return Err(Failure::of_folder(folder, error)),
        }
    }
    Ok(files)
}

/// Reads the file of an entry and adds it, if it is a variable of the boot manager.
fn push_variable<R: Files + Input + Clone>(
    rt: &R,
    files: &mut Vec<VariableFile>,
    entry: &DirEntry,
) -> Result<(), Failure> {
    let name = entry.file_name();
    if BootVariable::of_file(name).is_none() {
        return Ok(());
    }
    let path = entry.path().as_str();
    match read_file(rt, path, MAX_READS) {
        Ok(bytes) => {
            let name = String::fallible_from_str(name)?;
            match files.fallible_push(VariableFile { name, bytes }) {
                Ok(()) => Ok(()),
                Err(_) => Err(Failure::Memory),
            }
        }
        Err(error) => Err(Failure::of_file(path, error)),
    }
}
