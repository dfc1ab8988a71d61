// @generated from proved source. It is not edited.

use crate::rows::quoted;
use crate::uefi_base::{Error, FromSliceWithNulError, FromStrError, Status, UnalignedCStr16Error};

/// Returns the status that has a name.
fn status_of(name: &str) -> Option<Status> {
    Some(match name {
        "INVALID_PARAMETER" => Status::INVALID_PARAMETER,
        "BAD_BUFFER_SIZE" => Status::BAD_BUFFER_SIZE,
        "BUFFER_TOO_SMALL" => Status::BUFFER_TOO_SMALL,
        "OUT_OF_RESOURCES" => Status::OUT_OF_RESOURCES,
        _ => return None,
    })
}

/// Returns the code of the status that has a name, and what it is displayed as.
pub(crate) fn status(input: &str) -> Option<String> {
    let status = status_of(input)?;
    let code = status.code();
    fallible_format!("({code}, \"{status}\")").ok()
}

/// Returns the error of a status, and of a number, or of none.
fn error_of(input: &str) -> Option<Error<Option<usize>>> {
    let (status, data) = input.split_once(" ")?;
    Some(Error::new(status_of(status)?, data.parse::<usize>().ok()))
}

/// Returns the status and the data of an error, and what it is displayed as.
pub(crate) fn error(input: &str) -> Option<String> {
    let error = error_of(input)?;
    let (status, data) = (error.status(), error.data());
    fallible_format!("({status}, {data:?}, \"{error}\")").ok()
}

/// Returns whether two errors are equal.
pub(crate) fn equal_errors(input: &str) -> Option<String> {
    let (one, other) = input.split_once(" ; ")?;
    let are_equal = error_of(one)? == error_of(other)?;
    fallible_format!("{are_equal}").ok()
}

/// Returns what the error of units with a name is displayed as: the same of units over bytes.
fn of_units(error: FromSliceWithNulError) -> Option<String> {
    let text = fallible_format!("{error}").ok()?;
    let unaligned = fallible_format!("{}", UnalignedCStr16Error::from(error)).ok()?;
    if text != unaligned {
        return fallible_format!("{text}, and of bytes {unaligned}").ok();
    }
    quoted(text.as_str()).ok()
}

/// Returns what the error with a name is displayed as.
pub(crate) fn error_text(name: &str) -> Option<String> {
    let error = match name {
        "TooLong" => FromSliceWithNulError::TooLong,
        "InvalidChar(3)" => FromSliceWithNulError::InvalidChar(3),
        "InteriorNul(0)" => FromSliceWithNulError::InteriorNul(0),
        "NotNulTerminated" => FromSliceWithNulError::NotNulTerminated,
        _ => {
            let text = fallible_format!("{}", FromStrError::InvalidChar).ok()?;
            return quoted(text.as_str()).ok();
        }
    };
    of_units(error)
}
