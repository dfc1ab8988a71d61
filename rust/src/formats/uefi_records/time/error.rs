// @generated from proved source. It is not edited.

use core::error::Error;
use core::fmt;

/// Which fields of a time are at fault: outside their ranges or, for daylight, with bits that have
/// no name. The default is no fault.
#[non_exhaustive]
#[derive(Clone, Copy, PartialEq, Eq, Debug, Default)]
pub struct TimeError {
    /// The year isn't 1900 to 9999.
    pub year: bool,
    /// The month isn't 1 to 12.
    pub month: bool,
    /// The day isn't 1 to 31.
    pub day: bool,
    /// The hour is above 23.
    pub hour: bool,
    /// The minute is above 59.
    pub minute: bool,
    /// The second is above 59.
    pub second: bool,
    /// The nanosecond is above 999,999,999.
    pub nanosecond: bool,
    /// The zone is neither unspecified nor -1440 to 1440 minutes.
    pub timezone: bool,
    /// Daylight has bits without a name. Only reading from bytes reports this, and then alone.
    pub daylight: bool,
}

/// The error of bytes that are not a time.
#[derive(Clone, Copy, PartialEq, Eq, Debug)]
pub enum TimeByteConversionError {
    /// These fields are at fault: daylight alone, or all others that are.
    InvalidFields(TimeError),
    /// There are fewer than sixteen bytes.
    InvalidSize,
}

/// A line for each field that is at fault, in the order of the fields, each with a newline. The
/// line of the month has no closing backquote, as in the Rust crate.
impl fmt::Display for TimeError {
    fn fmt(&self, f: &mut fmt::Formatter<'_>) -> fmt::Result {
        let year = FaultLine(self.year, "year not within `1900..=9999`");
        let month = FaultLine(self.month, "month not within `1..=12");
        let day = FaultLine(self.day, "day not within `1..=31`");
        let hour = FaultLine(self.hour, "hour not within `0..=23`");
        let minute = FaultLine(self.minute, "minute not within `0..=59`");
        let second = FaultLine(self.second, "second not within `0..=59`");
        let nanosecond = FaultLine(self.nanosecond, "nanosecond not within `0..=999_999_999`");
        let zone = FaultLine(
            self.timezone,
            "time_zone not `Time::UNSPECIFIED_TIMEZONE` nor within `-1440..=1440`",
        );
        let daylight = FaultLine(self.daylight, "unknown bits set for daylight");
        write!(
            f,
            "{year}{month}{day}{hour}{minute}{second}{nanosecond}{zone}{daylight}"
        )
    }
}

impl Error for TimeError {}

/// A line of text, present if its field is at fault.
#[derive(Clone, Copy, Debug)]
struct FaultLine<'a>(bool, &'a str);

impl fmt::Display for FaultLine<'_> {
    fn fmt(&self, f: &mut fmt::Formatter<'_>) -> fmt::Result {
        if self.0 {
            writeln!(f, "{}", self.1)
        } else {
            Ok(())
        }
    }
}

/// The lines of the fields at fault, or a text without a newline if there are too few bytes.
impl fmt::Display for TimeByteConversionError {
    fn fmt(&self, f: &mut fmt::Formatter<'_>) -> fmt::Result {
        match self {
            TimeByteConversionError::InvalidFields(faults) => write!(f, "{faults}"),
            TimeByteConversionError::InvalidSize => {
                f.write_str("the byte slice is not large enough to hold a Time struct")
            }
        }
    }
}

impl Error for TimeByteConversionError {}
