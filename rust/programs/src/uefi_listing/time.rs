// @generated from proved source. It is not edited.

//! What `time` lists of bytes, and what it refuses.

use crate::uefi_listing::listing::Outcome;
use crate::support::alloc::AllocError;
use core::fmt;
use uefi_formats::runtime::{Time, TimeByteConversionError};

/// Appends the line of a time, `time YYYY-MM-DD HH:MM:SS.NNNNNNNNN ZONE DAYLIGHT`.
///
/// ZONE is the minutes from UTC in decimal, or `local`; DAYLIGHT the bits of the flag set in
/// decimal.
///
/// # Errors
///
/// [`AllocError`] if an allocation fails. The text may have grown then.
pub fn push_time(text: &mut String, time: &Time) -> Result<(), AllocError> {
    let (date, clock, zone) = (Date(time), Clock(time), Zone(time));
    let daylight = time.daylight().bits();
    fallible_writeln!(text, "time {date} {clock} {zone} {daylight}")
}

/// The year, the month and the day of a time, displayed with leading zeros.
#[derive(Clone, Copy, Debug)]
struct Date<'a>(&'a Time);

impl fmt::Display for Date<'_> {
    fn fmt(&self, f: &mut fmt::Formatter<'_>) -> fmt::Result {
        let (year, month, day) = (self.0.year(), self.0.month(), self.0.day());
        write!(f, "{year:04}-{month:02}-{day:02}")
    }
}

/// The hour, the minute, the second and the nanosecond of a time, displayed with leading zeros.
#[derive(Clone, Copy, Debug)]
struct Clock<'a>(&'a Time);

impl fmt::Display for Clock<'_> {
    fn fmt(&self, f: &mut fmt::Formatter<'_>) -> fmt::Result {
        let (hour, minute, second) = (self.0.hour(), self.0.minute(), self.0.second());
        let nanosecond = self.0.nanosecond();
        write!(f, "{hour:02}:{minute:02}:{second:02}.{nanosecond:09}")
    }
}

/// The zone of a time, displayed in minutes from UTC, or as `local` if it is unspecified.
#[derive(Clone, Copy, Debug)]
struct Zone<'a>(&'a Time);

impl fmt::Display for Zone<'_> {
    fn fmt(&self, f: &mut fmt::Formatter<'_>) -> fmt::Result {
        match self.0.time_zone() {
            None => write!(f, "local"),
            Some(zone) => write!(f, "{zone}"),
        }
    }
}

/// Appends the listing of the time in the first sixteen bytes.
///
/// # Errors
///
/// [`AllocError`] if an allocation fails. The text may have grown then.
pub(crate) fn push_time_listing(
    text: &mut String,
    bytes: &[u8],
) -> Result<Outcome, AllocError> {
    match Time::try_from(bytes) {
        Ok(time) => {
            push_time(text, &time)?;
            Ok(Outcome::Listed)
        }
        Err(TimeByteConversionError::InvalidSize) => {
            fallible_writeln!(text, "refused InvalidSize")?;
            Ok(Outcome::Refused)
        }
        Err(TimeByteConversionError::InvalidFields(_)) => {
            fallible_writeln!(text, "refused InvalidFields")?;
            Ok(Outcome::Refused)
        }
    }
}
