// @generated from proved source. It is not edited.

//! Writers of text: one that counts the bytes, and one that fills a buffer.

use crate::formats::uefi_c::status::{self, UefiStatus};
use core::fmt::{self, Write};
use crate::formats::uefi_base::buffer::put;

/// A writer that counts the bytes of a text, and keeps none.
#[derive(Debug)]
struct Count {
    length: usize,
}

/// It fails if the number is no `usize`.
impl fmt::Write for Count {
    #[inline]
    fn write_str(&mut self, text: &str) -> fmt::Result {
        let Some(length) = self.length.checked_add(text.len()) else {
            return Err(fmt::Error);
        };
        self.length = length;
        Ok(())
    }
}

/// A writer that fills a buffer from its start.
#[derive(Debug)]
struct Fill<'a> {
    buffer: &'a mut [u8],
    length: usize,
}

/// It fails if the rest of the buffer is shorter than the text.
impl fmt::Write for Fill<'_> {
    #[inline]
    fn write_str(&mut self, text: &str) -> fmt::Result {
        let bytes = text.as_bytes();
        let Some(end) = self.length.checked_add(bytes.len()) else {
            return Err(fmt::Error);
        };
        if self.buffer.len() < end {
            return Err(fmt::Error);
        }
        put(self.buffer, self.length, bytes);
        self.length = end;
        Ok(())
    }
}

/// Returns the length of the text that a value displays in bytes.
///
/// # Errors
///
/// If the value can't be displayed, or the length is no `usize`.
#[inline]
pub(crate) fn text_length<T: fmt::Display>(text: T) -> Result<usize, fmt::Error> {
    let mut count = Count { length: 0 };
    count.write_fmt(format_args!("{text}"))?;
    Ok(count.length)
}

/// Writes the text that a value displays to the beginning of the buffer.
///
/// # Errors
///
/// If the value can't be displayed, or the buffer is shorter.
#[inline]
pub(crate) fn fill_text<T: fmt::Display>(buffer: &mut [u8], text: T) -> fmt::Result {
    let mut fill = Fill { buffer, length: 0 };
    fill.write_fmt(format_args!("{text}"))?;
    Ok(())
}

/// Writes the text that a value displays to the beginning of the buffer; the bytes after it stay as
/// they were. Returns the status, and the length of the text.
///
/// If the buffer is shorter, all bytes stay as they were. If the text can't be displayed, or its
/// length is no `usize`, the length is 0.
#[inline]
pub(crate) fn put_text<T: fmt::Display + Copy>(buffer: &mut [u8], text: T) -> (UefiStatus, usize) {
    let Ok(length) = text_length(text) else {
        return (status::TOO_LONG, 0);
    };
    if buffer.len() < length {
        return (status::BUFFER_TOO_SMALL, length);
    }
    let Ok(()) = fill_text(buffer, text) else {
        return (status::TOO_LONG, 0);
    };
    (status::OK, length)
}
