// @generated from proved source. It is not edited.

use crate::support::test::Fail;
use crate::test_support::{bytes, holds, same, same_bytes, takes_memory, without_request};
use crate::uefi_base::{CString16, Error, Status, UnalignedSlice};
use crate::uefi_path::{
    BoxedLoadOption, LoadOption, LoadOptionAttributes, LoadOptionDescription, LoadOptionParts,
    write_load_option,
};

/// `Boot0001` of an OVMF firmware, a disk of QEMU.
const DISK: &str = "01000000 2000 \
    5500 4500 4600 4900 2000 5100 4500 4d00 5500 2000 4800 4100 5200 4400 4400 4900 5300 4b00 2000 \
    5100 4d00 3000 3000 3000 3000 3100 2000 0000 \
    0201 0c00 d041030a00000000  0101 0600 021f  0312 0a00 0000ffff0000  7fff 0400 \
    4eac0881119f594d850ee21a522c59b2";

/// Options without a description, and with other bytes after its path in the file path list.
const SMALLEST: &str = "00000000 0400  0000  7fff 0400";

const TWO_PATHS: &str = "03000000 0a00  4100 0000  7fff 0600 aabb  7f01 0400  cc";

/// The path of the disk, and its optional data.
const DISK_PATH: &str =
    "0201 0c00 d041030a00000000  0101 0600 021f  0312 0a00 0000ffff0000  7fff 0400";

const DISK_DATA: &str = "4eac0881119f594d850ee21a522c59b2";

/// Returns the parts of the disk's option, with this description.
fn disk_parts<'a>(
    description: LoadOptionDescription<'a>,
    path: &'a [u8],
    optional_data: &'a [u8],
) -> LoadOptionParts<'a> {
    LoadOptionParts {
        attributes: LoadOptionAttributes::ACTIVE,
        description,
        file_path_list: path,
        optional_data,
    }
}

#[test]
fn an_option_with_a_text_is_written_to_the_beginning_of_a_buffer(
    ) -> Result<(), Fail> {
    let name = CString16::from_str("UEFI QEMU HARDDISK QM00001 ")?;
    let path = bytes(DISK_PATH)?;
    let optional_data = bytes(DISK_DATA)?;
    let parts = disk_parts(
        LoadOptionDescription::Text(name.as_cstr16()),
        path.as_slice(),
        optional_data.as_slice(),
    );
    let mut buffer = [0xff; 120];
    let written = write_load_option(&mut buffer, &parts);
    holds("its length", written == Ok(110))?;
    let row = bytes(DISK)?;
    holds("the option", buffer.starts_with(row.as_slice()))?;
    holds("the bytes that follow", buffer.ends_with(&[0xff; 10]))
}

#[test]
fn a_view_has_the_parts_that_were_written() -> Result<(), Fail> {
    let row = bytes(TWO_PATHS)?;
    let Ok(read) = LoadOption::try_from(row.as_slice()) else {
        return Err(Fail::new("no load option"));
    };
    let mut buffer = [0xff; 24];
    let Ok(option) = LoadOption::new_in_buffer(&mut buffer, &read.parts()) else {
        return Err(Fail::new("the option fits"));
    };
    holds("attributes", option.attributes() == read.attributes())?;
    holds("description", option.description() == read.description())?;
    same_bytes("list", option.file_path_list(), read.file_path_list())?;
    same_bytes("data", option.optional_data(), read.optional_data())?;
    holds("the buffer", buffer.starts_with(row.as_slice()))?;
    holds("the bytes that follow", buffer.ends_with(&[0xff; 3]))
}

#[test]
fn a_view_of_a_short_buffer_has_an_error() -> Result<(), Fail> {
    let row = bytes(SMALLEST)?;
    let Ok(read) = LoadOption::try_from(row.as_slice()) else {
        return Err(Fail::new("no load option"));
    };
    let mut buffer = [0xff; 11];
    let option = LoadOption::new_in_buffer(&mut buffer, &read.parts());
    let expected = Error::new(Status::BUFFER_TOO_SMALL, Some(12));
    holds("the error", option.err() == Some(expected))?;
    same_bytes("the buffer", buffer.as_slice(), [0xff; 11].as_slice())
}

/// Returns whether the option in a box has these bytes and this number of bytes of data, or `None`
/// if memory ran out.
fn box_option(
    parts: &LoadOptionParts<'_>,
    row: &[u8],
) -> Option<(bool, usize)> {
    match LoadOption::new_in_box(parts) {
        Ok(boxed) => Some(bytes_and_data(&boxed, row)),
        Err(error) if error == Error::new(Status::OUT_OF_RESOURCES, ()) => None,
        Err(_) => Some((false, 0)),
    }
}

/// Returns whether the option has these bytes, and the number of bytes of its data.
fn bytes_and_data(boxed: &BoxedLoadOption, row: &[u8]) -> (bool, usize) {
    let option = boxed.as_load_option();
    (boxed.as_bytes() == row, option.optional_data().len())
}

#[test]
fn an_option_is_in_a_box_or_memory_was_refused() -> Result<(), Fail> {
    let row = bytes(DISK)?;
    let Ok(read) = LoadOption::try_from(row.as_slice()) else {
        return Err(Fail::new("no load option"));
    };
    let parts = read.parts();
    let ample = box_option(&parts, row.as_slice());
    same("ample memory", &ample, &Some((true, 16)))?;
    takes_memory(&(true, 16), || {
        box_option(&parts, row.as_slice())
    })
}

#[test]
fn parts_of_no_option_take_no_memory() -> Result<(), Fail> {
    let units = LoadOptionDescription::Units(UnalignedSlice::new(&[0, 0]));
    let parts = disk_parts(units, &[], &[]);
    without_request(&Some((false, 0)), || {
        box_option(&parts, &[])
    })?;
    let refused = LoadOption::new_in_box(&parts).err();
    let expected = Error::new(Status::INVALID_PARAMETER, ());
    holds("the error", refused == Some(expected))
}
