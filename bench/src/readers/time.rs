//! Times: a plain reader.

pub const LENGTH: usize = 16;
const UNSPECIFIED_ZONE: i16 = 0x07ff;

pub struct Time {
    pub year: u16,
    pub month: u8,
    pub day: u8,
    pub hour: u8,
    pub minute: u8,
    pub second: u8,
    pub nanosecond: u32,
    zone: i16,
    pub daylight: u8,
}

impl Time {
    /// The time in the first sixteen bytes, where each field is within its range, or the name of
    /// what is wrong.
    pub fn read(bytes: &[u8]) -> Result<Time, &'static str> {
        let bytes: &[u8; LENGTH] = bytes.first_chunk().ok_or("InvalidSize")?;
        if bytes[14] > 3 {
            return Err("InvalidFields");
        }
        let time = Time {
            year: u16::from_le_bytes([bytes[0], bytes[1]]),
            month: bytes[2],
            day: bytes[3],
            hour: bytes[4],
            minute: bytes[5],
            second: bytes[6],
            nanosecond: u32::from_le_bytes([bytes[8], bytes[9], bytes[10], bytes[11]]),
            zone: i16::from_le_bytes([bytes[12], bytes[13]]),
            daylight: bytes[14],
        };
        if time.is_valid() { Ok(time) } else { Err("InvalidFields") }
    }

    fn is_valid(&self) -> bool {
        (1900..=9999).contains(&self.year)
            && (1..=12).contains(&self.month)
            && (1..=31).contains(&self.day)
            && self.hour <= 23
            && self.minute <= 59
            && self.second <= 59
            && self.nanosecond <= 999_999_999
            && (self.zone == UNSPECIFIED_ZONE || (-1440..=1440).contains(&self.zone))
    }

    /// The minutes from UTC, where the zone is specified.
    pub fn zone(&self) -> Option<i16> {
        (self.zone != UNSPECIFIED_ZONE).then_some(self.zone)
    }
}
