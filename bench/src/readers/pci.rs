//! Lists of PCI resources: a plain reader.

pub const RECORD_TAG: u8 = 0x8a;
pub const RECORD_LENGTH: usize = 46;
pub const END_TAG: u8 = 0x79;

#[derive(Clone, Copy, Debug)]
pub enum RangeType {
    Memory,
    Io,
    Bus,
    Unknown(u8),
}

/// A range.
#[derive(Clone, Copy)]
pub struct Range {
    pub range_type: RangeType,
    pub general_flags: u8,
    pub type_specific_flags: u8,
    pub granularity: u64,
    pub address_min: u64,
    pub address_max: u64,
    pub translation_offset: u64,
    pub address_length: u64,
}

impl Range {
    pub fn read(record: &[u8; RECORD_LENGTH]) -> Range {
        let u64_at =
            |offset: usize| u64::from_le_bytes(record[offset..offset + 8].try_into().unwrap());
        Range {
            range_type: match record[3] {
                0 => RangeType::Memory,
                1 => RangeType::Io,
                2 => RangeType::Bus,
                other => RangeType::Unknown(other),
            },
            general_flags: record[4],
            type_specific_flags: record[5],
            granularity: u64_at(6),
            address_min: u64_at(14),
            address_max: u64_at(22),
            translation_offset: u64_at(30),
            address_length: u64_at(38),
        }
    }
}

/// The bytes before the end tag, of which each tag and length is tested, or the name of what is
/// where neither a whole record nor the end tag is.
pub fn records(bytes: &[u8]) -> Result<&[u8], String> {
    let mut rest = bytes;
    loop {
        match *rest.first().ok_or("NoEndTag")? {
            RECORD_TAG => rest = rest.get(RECORD_LENGTH..).ok_or("CutRecord")?,
            END_TAG => return Ok(&bytes[..bytes.len() - rest.len()]),
            tag => return Err(format!("UnknownTag({tag})")),
        }
    }
}
