// @generated from proved source. It is not edited.

use crate::support::fallible::*;

use crate::rows::{hex_digits, quoted};
use crate::test_support::bytes;
use crate::uefi_records::{Daylight, Time, TimeParams};

/// The fields of a time.
#[derive(Clone, Copy, Debug)]
pub(crate) struct Fields {
    date: (u16, u8, u8),
    time: (u8, u8, u8),
    nanosecond: u32,
    time_zone: Option<i16>,
    daylight: Daylight,
}

/// Returns the fields of the time that the bytes are.
pub(crate) fn time(input: &[u8]) -> Option<Fields> {
    let time = Time::try_from(input).ok()?;
    Some(Fields {
        date: (time.year(), time.month(), time.day()),
        time: (time.hour(), time.minute(), time.second()),
        nanosecond: time.nanosecond(),
        time_zone: time.time_zone(),
        daylight: time.daylight(),
    })
}

/// Returns the bytes of the valid time that the input begins with.
pub(crate) fn time_bytes(input: &str) -> Option<String> {
    let input = bytes(input).ok()?;
    let Ok(time) = Time::try_from(input.as_slice()) else {
        return fallible_format!("no time").ok();
    };
    if let Err(error) = time.is_valid() {
        return fallible_format!("no valid time: {error:?}").ok();
    }
    hex_digits(&time.to_bytes()).ok()
}

/// Returns what the error of bytes that are no time is displayed as.
pub(crate) fn time_error(input: &str) -> Option<String> {
    let input = bytes(input).ok()?;
    let Err(error) = Time::try_from(input.as_slice()) else {
        return fallible_format!("the bytes are a time").ok();
    };
    let text = fallible_format!("{error}").ok()?;
    quoted(text.as_str()).ok()
}

/// Returns the fields that nine numbers are: a time zone that is no number is none.
fn params(input: &str) -> Option<TimeParams> {
    let parts = input.split(" ").fallible_collect::<Vec<&str>>().ok()?;
    let [
        year,
        month,
        day,
        hour,
        minute,
        second,
        nanosecond,
        time_zone,
        daylight,
    ] = parts.as_slice()
    else {
        return None;
    };
    Some(TimeParams {
        year: year.parse::<u16>().ok()?,
        month: month.parse::<u8>().ok()?,
        day: day.parse::<u8>().ok()?,
        hour: hour.parse::<u8>().ok()?,
        minute: minute.parse::<u8>().ok()?,
        second: second.parse::<u8>().ok()?,
        nanosecond: nanosecond.parse::<u32>().ok()?,
        time_zone: time_zone.parse::<i16>().ok(),
        daylight: Daylight::from_bits_retain(daylight.parse::<u8>().ok()?),
    })
}

/// Returns the bytes and the zone of the time that is made of the fields, or its error.
pub(crate) fn new_time(input: &str) -> Option<String> {
    let time = match Time::new(params(input)?) {
        Ok(time) => time,
        Err(error) => return fallible_format!("Err({error:?})").ok(),
    };
    if let Err(error) = time.is_valid() {
        return fallible_format!("no valid time: {error:?}").ok();
    }
    let bytes = hex_digits(&time.to_bytes()).ok()?;
    let zone = time.time_zone();
    fallible_format!("Ok({bytes}, {zone:?})").ok()
}

/// Returns the bytes and the faults of the time of zeros.
pub(crate) fn invalid_time() -> Option<String> {
    let time = Time::invalid();
    let bytes = hex_digits(&time.to_bytes()).ok()?;
    let faults = time.is_valid();
    fallible_format!("({bytes}, {faults:?})").ok()
}

/// Returns whether the times that two inputs begin with are equal.
pub(crate) fn equal_times(one: &[u8], other: &[u8]) -> Option<bool> {
    Some(Time::try_from(one).ok()? == Time::try_from(other).ok()?)
}
