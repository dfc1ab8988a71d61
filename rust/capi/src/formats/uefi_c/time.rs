// @generated from proved source. It is not edited.

use core::mem::MaybeUninit;
use crate::bytes::Bytes;

use crate::formats::uefi_c::status::{self, UefiStatus};
use crate::formats::uefi_records::{Daylight, Time, TimeByteConversionError, TimeError, TimeParams};

/// The zone of local time.
const UNSPECIFIED_ZONE: i16 = 0x07ff;

/// A date and a time of day.
#[derive(Clone, Copy, Debug)]
#[repr(C)]
pub struct UefiTime {
    /// The nanosecond of the second.
    pub nanosecond: u32,
    /// The year.
    pub year: u16,
    /// The zone in minutes from UTC, or 0x07ff for local time.
    pub zone: i16,
    /// The month, 1 for January.
    pub month: u8,
    /// The day of the month, 1 for the first.
    pub day: u8,
    /// The hour of the day.
    pub hour: u8,
    /// The minute of the hour.
    pub minute: u8,
    /// The second of the minute.
    pub second: u8,
    /// How daylight saving affects the time: bit 0, it does; bit 1, it is in effect.
    pub daylight: u8,
}

/// Which fields of a time are at fault.
#[derive(Clone, Copy, Debug)]
#[repr(C)]
pub struct UefiTimeFaults {
    /// The year isn't 1900 to 9999.
    pub year: bool,
    /// The month isn't 1 to 12.
    pub month: bool,
    /// The day isn't 1 to 31.
    pub day: bool,
    /// The hour is above 23.
    pub hour: bool,
    /// The minute is above 59.
    pub minute: bool,
    /// The second is above 59.
    pub second: bool,
    /// The nanosecond is above 999,999,999.
    pub nanosecond: bool,
    /// The zone is neither unspecified nor -1440 to 1440 minutes.
    pub zone: bool,
    /// Daylight has bits without a name. It is then alone at fault.
    pub daylight: bool,
}

/// No field is at fault.
const NO_FAULTS: UefiTimeFaults = UefiTimeFaults {
    year: false,
    month: false,
    day: false,
    hour: false,
    minute: false,
    second: false,
    nanosecond: false,
    zone: false,
    daylight: false,
};

/// Reads the time in the first sixteen bytes, if there are as many, and it has no fault.
#[unsafe(no_mangle)]
pub extern "C" fn uefi_time(bytes: Bytes<'_>, out: &mut MaybeUninit<UefiTime>) -> UefiStatus {
    let bytes = bytes.as_slice();
    match Time::try_from(bytes) {
        Ok(time) => {
            out.write(seen(&time));
            status::OK
        }
        Err(TimeByteConversionError::InvalidSize) => status::TOO_SHORT,
        Err(TimeByteConversionError::InvalidFields(_)) => status::BAD_TIME,
    }
}

/// Finds the fields at fault of the time in the first sixteen bytes, if there are as many: without a
/// fault none.
#[unsafe(no_mangle)]
pub extern "C" fn uefi_time_faults(bytes: Bytes<'_>, out: &mut MaybeUninit<UefiTimeFaults>) -> UefiStatus {
    let bytes = bytes.as_slice();
    match Time::try_from(bytes) {
        Ok(_time) => {
            out.write(NO_FAULTS);
            status::OK
        }
        Err(TimeByteConversionError::InvalidSize) => status::TOO_SHORT,
        Err(TimeByteConversionError::InvalidFields(faults)) => {
            out.write(seen_faults(&faults));
            status::OK
        }
    }
}

/// Writes the sixteen bytes of a time, if its fields are in their ranges. Any bits of daylight are.
#[unsafe(no_mangle)]
pub extern "C" fn uefi_write_time(bytes: &mut MaybeUninit<[u8; 16]>, time: &UefiTime) -> UefiStatus {
    let params = TimeParams {
        year: time.year,
        month: time.month,
        day: time.day,
        hour: time.hour,
        minute: time.minute,
        second: time.second,
        nanosecond: time.nanosecond,
        time_zone: Some(time.zone),
        daylight: Daylight::from_bits_retain(time.daylight),
    };
    let Ok(time) = Time::new(params) else {
        return status::BAD_TIME;
    };
    bytes.write(time.to_bytes());
    status::OK
}

/// Returns the fields of a time, without its padding.
#[inline]
pub(crate) fn seen(time: &Time) -> UefiTime {
    UefiTime {
        nanosecond: time.nanosecond(),
        year: time.year(),
        zone: time.time_zone().unwrap_or(UNSPECIFIED_ZONE),
        month: time.month(),
        day: time.day(),
        hour: time.hour(),
        minute: time.minute(),
        second: time.second(),
        daylight: time.daylight().bits(),
    }
}

/// Returns the sixteen bytes of a time, whatever its fields are, with zeros as padding.
#[inline]
pub(crate) fn bytes_of(time: &UefiTime) -> [u8; 16] {
    let time = *time;
    let [year_low, year_high] = time.year.to_le_bytes();
    let [nano_0, nano_1, nano_2, nano_3] = time.nanosecond.to_le_bytes();
    let [zone_low, zone_high] = time.zone.to_le_bytes();
    [
        year_low,
        year_high,
        time.month,
        time.day,
        time.hour,
        time.minute,
        time.second,
        0,
        nano_0,
        nano_1,
        nano_2,
        nano_3,
        zone_low,
        zone_high,
        time.daylight,
        0,
    ]
}

/// Returns the fields at fault.
#[inline]
fn seen_faults(faults: &TimeError) -> UefiTimeFaults {
    UefiTimeFaults {
        year: faults.year,
        month: faults.month,
        day: faults.day,
        hour: faults.hour,
        minute: faults.minute,
        second: faults.second,
        nanosecond: faults.nanosecond,
        zone: faults.timezone,
        daylight: faults.daylight,
    }
}
