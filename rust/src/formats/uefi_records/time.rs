// @generated from proved source. It is not edited.

use crate::support::signed::ToSigned;

pub use self::error::{TimeByteConversionError, TimeError};
pub use self::params::TimeParams;
use crate::formats::uefi_records::flags::Daylight;
use crate::formats::uefi_base::little_endian::{u16_at, u32_at};

mod error;
mod params;

/// The length of a time, in bytes.
const TIME_LENGTH: usize = 16;

// The offsets of the fields.
const YEAR_OFFSET: usize = 0;

const MONTH_OFFSET: usize = 2;

const DAY_OFFSET: usize = 3;

const HOUR_OFFSET: usize = 4;

const MINUTE_OFFSET: usize = 5;

const SECOND_OFFSET: usize = 6;

const FIRST_PAD_OFFSET: usize = 7;

const NANOSECOND_OFFSET: usize = 8;

const ZONE_OFFSET: usize = 12;

const DAYLIGHT_OFFSET: usize = 14;

const LAST_PAD_OFFSET: usize = 15;

/// The zone of local time, `EFI_UNSPECIFIED_TIMEZONE`.
const UNSPECIFIED_TIMEZONE: i16 = 0x07ff;

/// A date and a time of day (UEFI 2.10, 8.3 `GetTime()`, `EFI_TIME`).
///
/// | offset | bytes | field | range |
/// |---|---|---|---|
/// | 0 | 2 | year, little-endian | 1900 to 9999 |
/// | 2 | 1 | month | 1 to 12 |
/// | 3 | 1 | day | 1 to 31, in every month |
/// | 4 | 1 | hour | 0 to 23 |
/// | 5 | 1 | minute | 0 to 59 |
/// | 6 | 1 | second | 0 to 59 |
/// | 7 | 1 | padding | |
/// | 8 | 4 | nanosecond, little-endian | 0 to 999,999,999 |
/// | 12 | 2 | zone in minutes from UTC, signed, little-endian | -1440 to 1440, or 0x07ff: local time |
/// | 14 | 1 | [`Daylight`] | |
/// | 15 | 1 | padding | |
///
/// A value, whose fields may be outside their ranges: [`Time::is_valid`] says which are. Two times
/// are equal if all their sixteen bytes are. The fields lie in memory as in the table: the layout is
/// that of C.
///
/// # Examples
///
/// A time, written to its sixteen bytes and read again:
///
/// ```
/// use uefi_formats::runtime::{Time, TimeByteConversionError};
///
/// fn read_back(time: &Time) -> Result<Time, TimeByteConversionError> {
///     Time::try_from(time.to_bytes().as_slice())
/// }
///
/// let bytes = [0xe8, 0x07, 2, 29, 12, 30, 0, 0, 0, 0, 0, 0, 0xff, 0x07, 0, 0];
/// let time = Time::try_from(bytes.as_slice())?;
/// assert_eq!((time.year(), time.month(), time.day()), (2024, 2, 29));
/// assert_eq!(read_back(&time)?, time);
/// # Ok::<(), TimeByteConversionError>(())
/// ```
#[derive(Clone, Copy, Debug)]
#[repr(C)]
pub struct Time {
    year: u16,
    month: u8,
    day: u8,
    hour: u8,
    minute: u8,
    second: u8,
    first_pad: u8,
    nanosecond: u32,
    zone: i16,
    daylight: Daylight,
    last_pad: u8,
}

#[cfg(feature = "alloc")]
const _: () = assert!(size_of::<Time>() == TIME_LENGTH);

impl Time {
    /// Makes the time with these fields, and zeros in its padding. A zone of `None` is stored as
    /// 0x07ff, so the zone 2047 reads back as `None`.
    ///
    /// # Errors
    ///
    /// The fields outside their ranges, if there are any. Daylight is never at fault here.
    #[inline]
    pub fn new(params: TimeParams) -> Result<Time, TimeError> {
        let time = Time {
            year: params.year,
            month: params.month,
            day: params.day,
            hour: params.hour,
            minute: params.minute,
            second: params.second,
            first_pad: 0,
            nanosecond: params.nanosecond,
            zone: params.time_zone.unwrap_or(UNSPECIFIED_TIMEZONE),
            daylight: params.daylight,
            last_pad: 0,
        };
        time.is_valid()?;
        Ok(time)
    }

    /// Returns the time whose bytes are all zero. To firmware it means that a file's time is not to
    /// be changed (UEFI 2.10, 13.5 `EFI_FILE_PROTOCOL.SetInfo()`). Its year, month and day are
    /// outside their ranges.
    #[must_use]
    #[inline]
    pub const fn invalid() -> Time {
        Time {
            year: 0,
            month: 0,
            day: 0,
            hour: 0,
            minute: 0,
            second: 0,
            first_pad: 0,
            nanosecond: 0,
            zone: 0,
            daylight: Daylight::empty(),
            last_pad: 0,
        }
    }

    /// Tests whether each field but daylight is within its range.
    ///
    /// # Errors
    ///
    /// The fields outside their ranges, if there are any. Daylight is never at fault here.
    #[inline]
    pub fn is_valid(&self) -> Result<(), TimeError> {
        let faults = self.range_faults();
        if faults == TimeError::default() {
            Ok(())
        } else {
            Err(faults)
        }
    }

    /// Returns the fields outside their ranges. Daylight is never at fault here.
    #[inline]
    fn range_faults(&self) -> TimeError {
        TimeError {
            year: !(1900..=9999).contains(&self.year),
            month: !(1..=12).contains(&self.month),
            day: !(1..=31).contains(&self.day),
            hour: !(0..=23).contains(&self.hour),
            minute: !(0..=59).contains(&self.minute),
            second: !(0..=59).contains(&self.second),
            nanosecond: !(0..=999_999_999).contains(&self.nanosecond),
            timezone: is_zone_outside(self.zone),
            daylight: false,
        }
    }

    /// Returns the year.
    #[must_use]
    #[inline]
    pub const fn year(&self) -> u16 {
        self.year
    }

    /// Returns the month, 1 for January.
    #[must_use]
    #[inline]
    pub const fn month(&self) -> u8 {
        self.month
    }

    /// Returns the day of the month, 1 for the first.
    #[must_use]
    #[inline]
    pub const fn day(&self) -> u8 {
        self.day
    }

    /// Returns the hour of the day.
    #[must_use]
    #[inline]
    pub const fn hour(&self) -> u8 {
        self.hour
    }

    /// Returns the minute of the hour.
    #[must_use]
    #[inline]
    pub const fn minute(&self) -> u8 {
        self.minute
    }

    /// Returns the second of the minute.
    #[must_use]
    #[inline]
    pub const fn second(&self) -> u8 {
        self.second
    }

    /// Returns the nanosecond of the second.
    #[must_use]
    #[inline]
    pub const fn nanosecond(&self) -> u32 {
        self.nanosecond
    }

    /// Returns the zone in minutes from UTC, or `None` for local time.
    #[must_use]
    #[inline]
    pub fn time_zone(&self) -> Option<i16> {
        (self.zone != UNSPECIFIED_TIMEZONE).then_some(self.zone)
    }

    /// Returns how daylight saving affects the time: all bits, including those without a name.
    #[must_use]
    #[inline]
    pub const fn daylight(&self) -> Daylight {
        self.daylight
    }

    /// Returns the sixteen bytes of the time, with its padding.
    #[must_use]
    #[inline]
    pub const fn to_bytes(&self) -> [u8; TIME_LENGTH] {
        let time = *self;
        let [year_low, year_high] = time.year.to_le_bytes();
        let [nano_0, nano_1, nano_2, nano_3] = time.nanosecond.to_le_bytes();
        let [zone_low, zone_high] = time.zone.to_le_bytes();
        [
            year_low,
            year_high,
            time.month,
            time.day,
            time.hour,
            time.minute,
            time.second,
            time.first_pad,
            nano_0,
            nano_1,
            nano_2,
            nano_3,
            zone_low,
            zone_high,
            time.daylight.bits(),
            time.last_pad,
        ]
    }

    /// Returns the time in the first sixteen bytes, whatever its fields are.
    #[inline]
    pub(crate) fn read(bytes: &[u8]) -> Time {
        Time {
            year: u16_at(bytes, YEAR_OFFSET),
            month: bytes[MONTH_OFFSET],
            day: bytes[DAY_OFFSET],
            hour: bytes[HOUR_OFFSET],
            minute: bytes[MINUTE_OFFSET],
            second: bytes[SECOND_OFFSET],
            first_pad: bytes[FIRST_PAD_OFFSET],
            nanosecond: u32_at(bytes, NANOSECOND_OFFSET),
            zone: u16_at(bytes, ZONE_OFFSET).to_signed(),
            daylight: Daylight::from_bits_retain(bytes[DAYLIGHT_OFFSET]),
            last_pad: bytes[LAST_PAD_OFFSET],
        }
    }
}

/// Returns whether a zone is neither unspecified nor within a day of UTC.
#[inline]
fn is_zone_outside(zone: i16) -> bool {
    zone != UNSPECIFIED_TIMEZONE && !(-1440..=1440).contains(&zone)
}

/// Reads the time in the first sixteen bytes. What follows is ignored, and the padding becomes
/// zero.
///
/// # Errors
///
/// In this order:
/// - [`TimeByteConversionError::InvalidSize`], if there are fewer than sixteen bytes.
/// - [`TimeByteConversionError::InvalidFields`] with daylight alone, if daylight has a bit without
///   a name.
/// - [`TimeByteConversionError::InvalidFields`] with all fields outside their ranges, if there are
///   any.
impl TryFrom<&[u8]> for Time {
    type Error = TimeByteConversionError;

    #[inline]
    fn try_from(bytes: &[u8]) -> Result<Time, TimeByteConversionError> {
        if bytes.len() < TIME_LENGTH {
            return Err(TimeByteConversionError::InvalidSize);
        }
        let time = Time::read(bytes);
        if Daylight::from_bits(time.daylight.bits()).is_none() {
            return Err(TimeByteConversionError::InvalidFields(TimeError {
                daylight: true,
                ..TimeError::default()
            }));
        }
        time.is_valid()
            .map_err(TimeByteConversionError::InvalidFields)?;
        Ok(Time {
            first_pad: 0,
            last_pad: 0,
            ..time
        })
    }
}

impl PartialEq for Time {
    #[inline]
    fn eq(&self, other: &Self) -> bool {
        self.to_bytes() == other.to_bytes()
    }
}

impl Eq for Time {}
