//! Counts and lengths at the limits of their numbers. Where a `usize` has 32 bits, those that only 64 bits
//! hold are past every length too.

use crate::support::test::Fail;
use crate::test_support::samples::SHA1_HEADER;
use crate::test_support::{bytes, holds};
use uefi_formats::proto::tcg::{v1, v2};

/// The offset of the count of rows in the header's event, and that of the data's length in an event.
const COUNT_OFFSET: usize = 56;
const LENGTH_OFFSET: usize = 28;

#[test]
fn a_table_longer_than_the_bytes_is_no_header() -> Result<(), Fail> {
    let header = bytes(SHA1_HEADER)?;
    let whole = v2::EventLog::new(Some(&header), Some(header.len()), false).header();
    holds("a table of one row", whole.is_some())?;
    for count in [2, 0x4000_0001, 0x8000_0001, 0xc000_0001, u32::MAX] {
        let mut header = header.clone();
        header[COUNT_OFFSET..COUNT_OFFSET + 4].copy_from_slice(&count.to_le_bytes());
        let found = v2::EventLog::new(Some(&header), Some(header.len()), false).header();
        holds("a table that is too long", found.is_none())?;
    }
    Ok(())
}

#[test]
fn a_table_has_as_many_rows_as_its_header_counts() -> Result<(), Fail> {
    let header = bytes(SHA1_HEADER)?;
    let (head, rest) = header.split_at(COUNT_OFFSET + 4);
    let (row, vendor) = rest.split_at(4);
    for count in [0, 1, 255, 256, 257, 0x1_0001] {
        let mut header = [head, &row.repeat(count as usize), vendor].concat();
        let data_length = header.len() as u32 - 32;
        header[COUNT_OFFSET..COUNT_OFFSET + 4].copy_from_slice(&u32::to_le_bytes(count));
        header[LENGTH_OFFSET..LENGTH_OFFSET + 4].copy_from_slice(&data_length.to_le_bytes());
        let found = v2::EventLog::new(Some(&header), Some(header.len()), false).header();
        let rows = found.map(|it| it.algorithm_digest_sizes().len());
        holds("a table of that many rows", rows == Some(count as usize))?;
    }
    Ok(())
}

#[test]
fn data_longer_than_the_bytes_are_no_event() -> Result<(), Fail> {
    for length in [1, 0x7fff_ffff, 0xffff_ffe0, u32::MAX] {
        let mut event = [0; 32];
        event[LENGTH_OFFSET..].copy_from_slice(&length.to_le_bytes());
        let log = v1::EventLog::new(Some(&event), Some(32), false);
        holds("an event that is cut", log.iter().next().is_none())?;
    }
    Ok(())
}
