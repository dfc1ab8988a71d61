// @generated from proved source. It is not edited.

use crate::formats::uefi_records::flags::Daylight;

/// The fields from which [`Time::new`](crate::formats::uefi_records::Time::new) makes a time.
#[derive(Clone, Copy, Debug)]
pub struct TimeParams {
    /// 1900 to 9999.
    pub year: u16,
    /// 1 to 12.
    pub month: u8,
    /// 1 to 31, in every month.
    pub day: u8,
    /// 0 to 23.
    pub hour: u8,
    /// 0 to 59.
    pub minute: u8,
    /// 0 to 59.
    pub second: u8,
    /// 0 to 999,999,999.
    pub nanosecond: u32,
    /// Minutes from UTC, -1440 to 1440, or `None` for local time.
    pub time_zone: Option<i16>,
    /// How daylight saving affects the time: any bits, including those without a name.
    pub daylight: Daylight,
}
