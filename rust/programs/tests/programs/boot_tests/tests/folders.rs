// @generated from proved source. It is not edited.

use crate::support::fallible::*;

use crate::boot_listing::Outcome::{self, Listed, Refused};
use crate::boot_listing::command::Form::{self, Json, Lines};
use crate::boot_listing::variables::VariableFile;
use crate::support::test::Fail;
use crate::test_support::bytes;

/// The file of a boot option named `a`, of a device, with a byte of data, behind its attributes.
pub const SMALL_OPTION: &str = "07000000  09010000 0a00  6100 0000  0101 0600 001f  7fff 0400  cc";

/// A form and a folder: names of files and their bytes as hex; its listing; and its outcome.
pub type Folder = (
    Form,
    &'static [(&'static str, &'static str)],
    &'static str,
    Outcome,
);

/// Folders of variables. One has each line that a listing can have.
pub const FOLDERS: [Folder; 7] = [
    (
        Lines,
        &[
            ("BootCurrent", "06000000 0300"),
            (
                "BootOrder-8be4df61-93ca-11d2-aa0d-00e098032b8c",
                "07000000 0300 0100 0300",
            ),
            (
                "Boot0000-8be4df61-93ca-11d2-aa0d-00e098032b8c",
                SMALL_OPTION,
            ),
            ("Boot0002", SMALL_OPTION),
            ("Boot0002-8be4df61-93ca-11d2-aa0d-00e098032b8c", ""),
            ("Boot0003", "07000000  08000000 0400 0000  7fff 0400"),
            ("Boot0004", "070000"),
            ("Boot00AF", "07000000 00000000 0400 0000"),
            ("Timeout", "07000000 0500"),
        ],
        "BootCurrent Boot0003\nBootOrder Boot0003 Boot0001 Boot0003\n\
         Boot0003 inactive\n  attributes 0x8\n  description \n  path \n  data\n\
         Boot0001 missing\n\
         Boot0000 active\n  attributes 0x109\n  description a\n  path Pci(0x1F,0x0)\n  data cc\n\
         Boot0002 twice\nBoot0004 refused NoAttributes\nBoot00AF refused FilePathListTooLong\n",
        Listed,
    ),
    (
        Lines,
        &[("BootCurrent", "06000000"), ("BootOrder", "07000000 00")],
        "BootCurrent refused InvalidLength\nBootOrder refused InvalidLength\n",
        Listed,
    ),
    (
        Lines,
        &[("BootCurrent", "060000"), ("BootOrder", "")],
        "BootCurrent refused NoAttributes\nBootOrder refused NoAttributes\n",
        Listed,
    ),
    (
        Lines,
        &[
            ("BootCurrent", "06000000 0000"),
            (
                "BootCurrent-8be4df61-93ca-11d2-aa0d-00e098032b8c",
                "06000000 0000",
            ),
            ("BootOrder", "07000000 0000"),
            (
                "BootOrder-8be4df61-93ca-11d2-aa0d-00e098032b8c",
                "07000000 0000",
            ),
        ],
        "BootCurrent twice\nBootOrder twice\n",
        Listed,
    ),
    (
        Lines,
        &[("Boot000a", SMALL_OPTION)],
        "refused NoBootVariable\n",
        Refused,
    ),
    (
        Json,
        &[
            ("BootCurrent", "06000000 0000"),
            ("BootOrder", "07000000 0000 0100"),
            ("Boot0000", SMALL_OPTION),
        ],
        "{\"name\":\"BootCurrent\",\"option\":\"Boot0000\"}\n\
         {\"name\":\"BootOrder\",\"options\":[\"Boot0000\",\"Boot0001\"]}\n\
         {\"name\":\"Boot0000\",\"active\":true,\"attributes\":265,\"description\":\"a\",\
         \"path\":\"Pci(0x1F,0x0)\",\"data\":\"cc\"}\n\
         {\"name\":\"Boot0001\",\"fault\":\"missing\"}\n",
        Listed,
    ),
    (
        Json,
        &[],
        "{\"fault\":\"refused NoBootVariable\"}\n",
        Refused,
    ),
];

/// Returns the files of a folder.
pub fn files_of(
    rows: &[(&'static str, &'static str)],
) -> Result<Vec<VariableFile>, Fail> {
    let mut files = Vec::new();
    for (name, row) in rows {
        let name = String::fallible_from_str(name)?;
        let bytes = bytes(row)?;
        files.fallible_push(VariableFile { name, bytes })?;
    }
    Ok(files)
}
